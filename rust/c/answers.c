/* Makes each call from C on sample bundles and holds the header's names to the answers: numbers, places of values, endings and reasons; and the scratch to
 * what the header says of its bits.
 *
 * usage: answers FOLDER
 */
#include "bundle.h"

#include <inttypes.h>
#include <string.h>

/* A sample for each number that a check can give. */
static const struct {
    const char *sample;
    int number;
} checks[] = {
    {"chart-4", CURIUMTOAD_OK},
    {"23-bytes", CURIUMTOAD_BAD_LENGTH},
    {"directory-gap", CURIUMTOAD_BAD_DIRECTORY},
    {"129-classes", CURIUMTOAD_BAD_COUNTS},
    {"own-parent", CURIUMTOAD_BAD_CLASS},
    {"four-arguments", CURIUMTOAD_BAD_FUNCTION},
    {"absent-result", CURIUMTOAD_BAD_SIGNATURE},
    {"empty-body", CURIUMTOAD_BAD_METHOD},
    {"twin-methods", CURIUMTOAD_TWIN_METHOD},
    {"unknown-operation", CURIUMTOAD_BAD_CODE},
    {"no-method", CURIUMTOAD_NO_METHOD},
    {"chart-3", CURIUMTOAD_AMBIGUOUS},
    {"narrow-declared", CURIUMTOAD_NARROW_DECLARED},
    {"wide-result", CURIUMTOAD_WIDE_RESULT},
    {"two-values", CURIUMTOAD_BAD_STACK},
    {"abstract-new", CURIUMTOAD_ABSTRACT_NEW},
    {"no-licence", CURIUMTOAD_NO_LICENCE},
    {"loose-result", CURIUMTOAD_LOOSE_RESULT},
    {"resend", CURIUMTOAD_OK},
    {"resend-operand", CURIUMTOAD_BAD_CODE},
    {"no-overridden", CURIUMTOAD_NO_OVERRIDDEN},
    {"ambiguous-resend", CURIUMTOAD_AMBIGUOUS_RESEND},
    {"narrow-target", CURIUMTOAD_NARROW_TARGET},
};

static const char *folder;
static struct bundle b;
static uint8_t scratch[CURIUMTOAD_SCRATCH_BYTES], row[CURIUMTOAD_ROW_BYTES], text[CURIUMTOAD_TEXT_BYTES];
static uint64_t v[CURIUMTOAD_VALUE_COUNT];
static int held, wrong;

#define HOLDS(claim) holds(claim, #claim, __LINE__)

static void holds(int claim, const char *words, int line)
{
    held++;
    if (!claim) {
        wrong++;
        printf("%s line %d: not so: %s\n", __FILE__, line, words);
    }
}

static void use(const char *sample)
{
    char path[4096];
    if (snprintf(path, sizeof path, "%s/%s.bundle", folder, sample) >= (int)sizeof path)
        fail("the folder's name is too long");
    read_bundle(path, &b);
}

/* The calls on the bundle in use, with the buffers above. */
#define BUNDLE b.bytes, b.size
#define SCRATCH scratch, sizeof scratch

static void openings(void)
{
    use("chart-3");
    HOLDS(curiumtoad_open(BUNDLE, v) == CURIUMTOAD_OK);
    HOLDS(v[CURIUMTOAD_AT_CLASSES] == 8 && v[CURIUMTOAD_AT_FUNCTIONS] == 1 && v[CURIUMTOAD_AT_SIGNATURES] == 1 && v[CURIUMTOAD_AT_METHODS] == 3);
    HOLDS(curiumtoad_body(BUNDLE, 1, v) == CURIUMTOAD_OK);
    HOLDS(v[CURIUMTOAD_AT_CODE_START] == 123 && v[CURIUMTOAD_AT_CODE_LENGTH] == 2);
    use("own-parent");
    HOLDS(curiumtoad_open(BUNDLE, v) == CURIUMTOAD_BAD_CLASS && v[CURIUMTOAD_AT_RECORD] == 1);
}

/* Whether the ancestry call gives this answer, and 0 for the other values, whatever they are before. */
static int related(uint64_t a, uint64_t other, uint64_t answer)
{
    uint64_t expected[CURIUMTOAD_VALUE_COUNT] = {0};
    expected[CURIUMTOAD_AT_ANCESTRY] = answer;
    memset(v, 0xff, sizeof v);
    return curiumtoad_ancestry(BUNDLE, SCRATCH, a, other, v) == CURIUMTOAD_OK && memcmp(v, expected, sizeof v) == 0;
}

static void ancestries(void)
{
    use("chart-3");
    for (uint64_t c = 0; c < 8; c++)
        HOLDS(related(c, c, CURIUMTOAD_SAME));
    /* Class 4 is under 3 and 0; it is not under 2, nor is that under 4. */
    HOLDS(related(4, 3, CURIUMTOAD_HEIR) && related(3, 4, CURIUMTOAD_NEITHER));
    HOLDS(related(4, 0, CURIUMTOAD_HEIR) && related(0, 4, CURIUMTOAD_NEITHER));
    HOLDS(related(4, 2, CURIUMTOAD_NEITHER) && related(2, 4, CURIUMTOAD_NEITHER));
    HOLDS(curiumtoad_ancestry(BUNDLE, SCRATCH, 3, UINT64_C(4294967300), v) == CURIUMTOAD_ABSENT);
    HOLDS(curiumtoad_ancestry(BUNDLE, SCRATCH, 8, 8, v) == CURIUMTOAD_ABSENT);
    HOLDS(curiumtoad_ancestry(BUNDLE, scratch, sizeof scratch - 1, 3, 4, v) == CURIUMTOAD_SHORT_SCRATCH);
}

/* Whether a send of function 0 finds the method, exact or not, and the other values are 0, whatever they are before. */
static int finds(uint64_t a0, uint64_t a1, uint64_t a2, uint64_t method, uint64_t exact)
{
    uint64_t expected[CURIUMTOAD_VALUE_COUNT] = {0};
    expected[CURIUMTOAD_AT_FOUND] = method;
    expected[CURIUMTOAD_AT_EXACT] = exact;
    memset(v, 0xff, sizeof v);
    return curiumtoad_lookup(BUNDLE, SCRATCH, 0, a0, a1, a2, v) == CURIUMTOAD_OK && memcmp(v, expected, sizeof v) == 0;
}

static void exact_methods(void)
{
    /* Method 0 is for classes 3 and 0, method 1 for 0 and 2, method 3 for 1 and 3; class 0 is abstract. */
    use("several-broken");
    HOLDS(finds(1, 3, 0, 3, 1));
    HOLDS(finds(3, 0, 0, 0, 1) && finds(3, 1, 0, 0, 0));
    HOLDS(finds(0, 2, 0, 1, 1) && finds(1, 2, 0, 1, 0));
    /* The method is for class 0 and declares class 1. */
    use("narrow-declared");
    HOLDS(finds(0, 0, 0, 0, 1) && finds(1, 0, 0, 0, 0));
    /* Method 0 becomes one for class 0 at each place; method 1 is for 1, 1 and 0. The methods begin where bytes 16 and 17 say. */
    use("three-argument-tie");
    memset(&b.bytes[b.bytes[16] + 256 * b.bytes[17] + 1], 0, 3);
    HOLDS(finds(1, 1, 0, 1, 1) && finds(1, 1, 1, 1, 0));
    HOLDS(finds(0, 0, 0, 0, 1) && finds(1, 0, 0, 0, 0) && finds(0, 1, 0, 0, 0) && finds(0, 0, 1, 0, 0));
    /* There is no argument that could be of another class. */
    use("loop");
    HOLDS(finds(0, 0, 0, 0, 1));
}

static void sends(void)
{
    use("chart-3");
    HOLDS(finds(1, 3, 0, 2, 1));
    HOLDS(curiumtoad_lookup(BUNDLE, SCRATCH, 0, 6, 7, 0, v) == CURIUMTOAD_NO_METHOD);
    HOLDS(v[CURIUMTOAD_AT_SEND_FUNCTION] == 0 && v[CURIUMTOAD_AT_SEND_A0] == 6 && v[CURIUMTOAD_AT_SEND_A1] == 7 && v[CURIUMTOAD_AT_SEND_A2] == 0);
    HOLDS(curiumtoad_lookup(BUNDLE, SCRATCH, 0, 2, 4, 0, v) == CURIUMTOAD_AMBIGUOUS);
    HOLDS(v[CURIUMTOAD_AT_SEND_FUNCTION] == 0 && v[CURIUMTOAD_AT_SEND_A0] == 2 && v[CURIUMTOAD_AT_SEND_A1] == 4 && v[CURIUMTOAD_AT_SEND_A2] == 0);
    HOLDS(v[CURIUMTOAD_AT_SEND_METHOD] == 1 && v[CURIUMTOAD_AT_SEND_RIVAL] == 0);
    /* Methods 0, 1 and 3 are rivals; 2 and 4 apply too and are beaten. */
    use("three-rivals");
    HOLDS(curiumtoad_lookup(BUNDLE, SCRATCH, 0, 5, 0, 0, v) == CURIUMTOAD_AMBIGUOUS);
    HOLDS(v[CURIUMTOAD_AT_SEND_METHOD] == 3 && v[CURIUMTOAD_AT_SEND_RIVAL] == 1);
    use("chart-5");
    HOLDS(curiumtoad_send_type(BUNDLE, SCRATCH, row, sizeof row, 0, 2, 4, 0, v) == CURIUMTOAD_OK && row[5] == 1 && row[6] == 0 && row[7] == 1);
    HOLDS(curiumtoad_send_type(BUNDLE, SCRATCH, row, sizeof row - 1, 0, 2, 4, 0, v) == CURIUMTOAD_SHORT_BUFFER);
}

/* Whether class a is under class b, by the scratch after a call. */
static int under(const uint8_t *matrix, size_t a, size_t b)
{
    return matrix[16 * a + b / 8] >> b % 8 & 1;
}

/* A call writes the first 2,048 bytes of its scratch, whatever they hold before, and none behind them. */
static void matrices(uint8_t before)
{
    static uint8_t lent[2049], untouched[sizeof lent];
    memset(untouched, before, sizeof untouched);
    memset(lent, before, sizeof lent);
    use("chart-3");
    HOLDS(curiumtoad_ancestry(BUNDLE, lent, 2047, 4, 3, v) == CURIUMTOAD_SHORT_SCRATCH);
    HOLDS(memcmp(lent, untouched, sizeof lent) == 0);
    HOLDS(curiumtoad_ancestry(BUNDLE, lent, 2048, 4, 3, v) == CURIUMTOAD_OK);
    /* Class 4 is under 0, 3 and 4; there are no classes 8 and 127. */
    HOLDS(under(lent, 4, 3) == 1 && under(lent, 3, 4) == 0 && lent[64] == 0x19 && lent[65] == 0);
    HOLDS(lent[128] == 0 && lent[2047] == 0 && lent[2048] == before);
    /* Class 11 is under 0, 9, 10 and 11. */
    use("102-methods");
    HOLDS(curiumtoad_check(BUNDLE, lent, sizeof lent, v) == CURIUMTOAD_OK);
    HOLDS(under(lent, 11, 9) == 1 && under(lent, 9, 11) == 0 && lent[176] == 0x01 && lent[177] == 0x0e);
    /* Each class but 0 is under 0 and itself, 126 and 127 too. */
    use("128-classes");
    HOLDS(curiumtoad_check(BUNDLE, lent, sizeof lent, v) == CURIUMTOAD_OK);
    HOLDS(lent[2016] == 0x01 && lent[2031] == 0x40 && lent[2032] == 0x01 && lent[2047] == 0x80 && lent[2048] == before);
}

static void rough_sends(void)
{
    use("chart-4");
    HOLDS(curiumtoad_rough(BUNDLE, SCRATCH, 0, 2, 4, 0, v) == CURIUMTOAD_OK);
    HOLDS(v[CURIUMTOAD_AT_ROUGH] == CURIUMTOAD_ROUGH_ONE && v[CURIUMTOAD_AT_ROUGH_METHOD] == 3);
    HOLDS(curiumtoad_rough(BUNDLE, SCRATCH, 0, 1, 3, 0, v) == CURIUMTOAD_OK && v[CURIUMTOAD_AT_ROUGH] == CURIUMTOAD_ROUGH_SEVERAL);
    HOLDS(v[CURIUMTOAD_AT_ROUGH_METHOD] == 0);
    /* No method takes class 6 or 7. */
    HOLDS(curiumtoad_rough(BUNDLE, SCRATCH, 0, 0, 0, 0, v) == CURIUMTOAD_OK && v[CURIUMTOAD_AT_ROUGH] == CURIUMTOAD_ROUGH_MAY_FAIL);
    /* Here classes 2 and 4 are ambiguous, and the three tuples before them find three methods. */
    use("chart-3");
    HOLDS(curiumtoad_rough(BUNDLE, SCRATCH, 0, 1, 3, 0, v) == CURIUMTOAD_OK && v[CURIUMTOAD_AT_ROUGH] == CURIUMTOAD_ROUGH_MAY_FAIL);
    HOLDS(v[CURIUMTOAD_AT_ROUGH_METHOD] == 0);
    HOLDS(curiumtoad_rough(BUNDLE, SCRATCH, 0, 1, 8, 0, v) == CURIUMTOAD_ABSENT);
    HOLDS(curiumtoad_rough(BUNDLE, SCRATCH, 0, 1, 3, 1, v) == CURIUMTOAD_ABSENT);
    HOLDS(curiumtoad_rough(BUNDLE, scratch, sizeof scratch - 1, 0, 1, 8, 0, v) == CURIUMTOAD_SHORT_SCRATCH);
    /* An abstract class is no argument itself. */
    use("abstract-argument");
    HOLDS(curiumtoad_rough(BUNDLE, SCRATCH, 0, 0, 0, 0, v) == CURIUMTOAD_OK && v[CURIUMTOAD_AT_ROUGH] == CURIUMTOAD_ROUGH_ONE);
    use("no-concrete-class");
    HOLDS(curiumtoad_rough(BUNDLE, SCRATCH, 0, 0, 1, 0, v) == CURIUMTOAD_ABSENT);
    HOLDS(curiumtoad_rough(BUNDLE, SCRATCH, 0, 0, 0, 0, v) == CURIUMTOAD_NO_CONCRETE);
    use("loop");
    HOLDS(curiumtoad_rough(BUNDLE, SCRATCH, 0, 0, 0, 0, v) == CURIUMTOAD_OK && v[CURIUMTOAD_AT_ROUGH] == CURIUMTOAD_ROUGH_ONE);
}

static void findings(void)
{
    use("chart-3");
    HOLDS(curiumtoad_check(BUNDLE, SCRATCH, v) == CURIUMTOAD_AMBIGUOUS);
    HOLDS(v[CURIUMTOAD_AT_BROKEN_METHOD] == 1 && v[CURIUMTOAD_AT_BROKEN_RIVAL] == 0);
    use("three-rivals");
    HOLDS(curiumtoad_check(BUNDLE, SCRATCH, v) == CURIUMTOAD_AMBIGUOUS && v[CURIUMTOAD_AT_BROKEN_A0] == 5);
    HOLDS(v[CURIUMTOAD_AT_BROKEN_METHOD] == 3 && v[CURIUMTOAD_AT_BROKEN_RIVAL] == 1);
    HOLDS(curiumtoad_witness(BUNDLE, SCRATCH, 0, 5, 0, 0, v) == CURIUMTOAD_AMBIGUOUS);
    HOLDS(v[CURIUMTOAD_AT_BROKEN_METHOD] == 3 && v[CURIUMTOAD_AT_BROKEN_RIVAL] == 1);
    /* The result of signature 1 becomes class 6, which method 1 does not keep to. The signatures begin where bytes 12 and 13 say, and have five bytes each. */
    use("chart-5");
    b.bytes[b.bytes[12] + 256 * b.bytes[13] + 9] = 6;
    HOLDS(curiumtoad_witness(BUNDLE, SCRATCH, 1, 2, 3, 0, v) == CURIUMTOAD_WIDE_RESULT);
    HOLDS(v[CURIUMTOAD_AT_BROKEN_SIGNATURE] == 1 && v[CURIUMTOAD_AT_BROKEN_FUNCTION] == 0 && v[CURIUMTOAD_AT_BROKEN_METHOD] == 1);
    HOLDS(v[CURIUMTOAD_AT_BROKEN_A0] == 2 && v[CURIUMTOAD_AT_BROKEN_A1] == 3 && v[CURIUMTOAD_AT_BROKEN_A2] == 0);
    use("missing-argument");
    HOLDS(curiumtoad_check(BUNDLE, SCRATCH, v) == CURIUMTOAD_BAD_STACK && v[CURIUMTOAD_AT_BODY_METHOD] == 1 && v[CURIUMTOAD_AT_BODY_INSTRUCTION] == 0);
}

/* A check that a resend breaks has the method and the instruction that the listing has, and no other value, whatever they are before. */
static void broken_resend(const char *sample)
{
    char expected[80];
    use(sample);
    memset(v, 0xff, sizeof v);
    int number = curiumtoad_check(BUNDLE, SCRATCH, v);
    snprintf(expected, sizeof expected, "refused %d method %" PRIu64 " at %" PRIu64 "\n", number,
             v[CURIUMTOAD_AT_BODY_METHOD], v[CURIUMTOAD_AT_BODY_INSTRUCTION]);
    for (size_t place = CURIUMTOAD_AT_BODY_INSTRUCTION + 1; place < CURIUMTOAD_VALUE_COUNT; place++)
        HOLDS(v[place] == 0);
    HOLDS(curiumtoad_listing(BUNDLE, text, sizeof text, v) == CURIUMTOAD_OK && v[CURIUMTOAD_AT_TEXT_LENGTH] > strlen(expected));
    HOLDS(memcmp(text + v[CURIUMTOAD_AT_TEXT_LENGTH] - strlen(expected), expected, strlen(expected)) == 0);
}

/* Whether a run of chart-4 with these classes ends in this way, where the first instruction of a method is a resend and method 2 declares a class for its
 * second argument. Methods 0 and 1 override 2 alone, which overrides none, and 3 overrides all of these. */
static int resent(uint64_t method, uint8_t declared, uint64_t a0, uint64_t a1, int number, uint64_t v0, uint64_t v1, uint64_t steps)
{
    uint64_t expected[CURIUMTOAD_VALUE_COUNT] = {v0, v1};
    expected[CURIUMTOAD_AT_STEPS] = steps;
    use("chart-4");
    if (curiumtoad_body(BUNDLE, method, v) != CURIUMTOAD_OK)
        return 0;
    b.bytes[v[CURIUMTOAD_AT_CODE_START]] = 3;
    b.bytes[v[CURIUMTOAD_AT_CODE_START] + 1] = 0;
    /* The methods begin where bytes 16 and 17 say, and have twelve bytes each. */
    b.bytes[b.bytes[16] + 256 * b.bytes[17] + 2 * 12 + 5] = declared;
    return curiumtoad_run(BUNDLE, SCRATCH, 0, a0, a1, 0, 9, v) == number && memcmp(v, expected, sizeof v) == 0;
}

static void resends(void)
{
    broken_resend("no-overridden");
    broken_resend("ambiguous-resend");
    broken_resend("narrow-target");
    HOLDS(resent(0, 3, 1, 4, CURIUMTOAD_OK, CURIUMTOAD_ENDING_VALUE, 6, 2));
    HOLDS(resent(2, 3, 1, 3, CURIUMTOAD_NO_OVERRIDDEN, 2, 0, 0));
    HOLDS(resent(3, 3, 2, 4, CURIUMTOAD_AMBIGUOUS_RESEND, 3, 0, 0));
    HOLDS(resent(1, 4, 2, 3, CURIUMTOAD_NARROW_TARGET, 1, 0, 0));
}

static void runs(void)
{
    use("chart-4");
    HOLDS(curiumtoad_run(BUNDLE, SCRATCH, 0, 2, 4, 0, 9, v) == CURIUMTOAD_OK && v[CURIUMTOAD_AT_ENDING] == CURIUMTOAD_ENDING_VALUE);
    HOLDS(v[CURIUMTOAD_AT_CLASS] == 7 && v[CURIUMTOAD_AT_STEPS] == 1);
    HOLDS(curiumtoad_run_accepted(BUNDLE, SCRATCH, 0, 6, 7, 0, 9, v) == CURIUMTOAD_ABSENT && v[CURIUMTOAD_AT_REASON] == CURIUMTOAD_REASON_NOT_COVERED);
    HOLDS(curiumtoad_run_accepted(BUNDLE, SCRATCH, 0, 8, 4, 0, 9, v) == CURIUMTOAD_ABSENT && v[CURIUMTOAD_AT_REASON] == CURIUMTOAD_REASON_WRONG_CALL);
    use("three-rivals");
    HOLDS(curiumtoad_run(BUNDLE, SCRATCH, 0, 5, 0, 0, 9, v) == CURIUMTOAD_AMBIGUOUS && v[CURIUMTOAD_AT_STEPS] == 0);
    HOLDS(v[CURIUMTOAD_AT_SEND_METHOD] == 3 && v[CURIUMTOAD_AT_SEND_RIVAL] == 1);
    use("loop");
    HOLDS(curiumtoad_run_accepted(BUNDLE, SCRATCH, 0, 0, 0, 0, 31, v) == CURIUMTOAD_OK && v[CURIUMTOAD_AT_ENDING] == CURIUMTOAD_ENDING_SPENT);
    HOLDS(curiumtoad_run_accepted(BUNDLE, SCRATCH, 0, 0, 0, 0, 32, v) == CURIUMTOAD_OK && v[CURIUMTOAD_AT_ENDING] == CURIUMTOAD_ENDING_DEEP);
}

static void listings(void)
{
    static const char expected[] = "classes 1 functions 1 signatures 1 methods 1\naccepted\n";
    use("loop");
    HOLDS(curiumtoad_listing(BUNDLE, text, sizeof text, v) == CURIUMTOAD_OK && v[CURIUMTOAD_AT_TEXT_LENGTH] == strlen(expected));
    HOLDS(memcmp(text, expected, strlen(expected)) == 0);
    HOLDS(curiumtoad_listing(BUNDLE, text, strlen(expected) - 1, v) == CURIUMTOAD_SHORT_BUFFER);
}

static void charts(void)
{
    static const char *const expected[] = {
        "        1    2    3    4    6    7\n",
        "   1    -    -    2    0    -    -\n",
        "   2    -    -    1    *    -    -\n",
        "   3    -    -    -    -    -    -\n",
        "   4    -    -    -    -    -    -\n",
        "   6    -    -    -    -    -    -\n",
        "   7    -    -    -    -    -    -\n",
    };
    static uint8_t line[CURIUMTOAD_LINE_BYTES];
    enum { LINES = sizeof expected / sizeof expected[0], LENGTH = 35 };
    use("chart-3");
    for (uint64_t k = 0; k < LINES; k++) {
        HOLDS(curiumtoad_chart(BUNDLE, SCRATCH, line, sizeof line, 0, k, v) == CURIUMTOAD_OK && v[CURIUMTOAD_AT_LINE_LENGTH] == LENGTH);
        HOLDS(memcmp(line, expected[k], LENGTH) == 0);
    }
    /* Each refusal comes before those that hold as well, and leaves the buffer alone. */
    HOLDS(curiumtoad_chart(BUNDLE, SCRATCH, line, LENGTH - 1, 1, LINES, v) == CURIUMTOAD_ABSENT);
    HOLDS(curiumtoad_chart(BUNDLE, SCRATCH, line, LENGTH - 1, 0, LINES, v) == CURIUMTOAD_NO_LINE);
    HOLDS(curiumtoad_chart(BUNDLE, SCRATCH, line, LENGTH - 1, 0, LINES - 1, v) == CURIUMTOAD_SHORT_LINE);
    HOLDS(memcmp(line, expected[LINES - 1], LENGTH) == 0);
    use("three-argument-tie");
    HOLDS(curiumtoad_chart(BUNDLE, SCRATCH, line, 0, 0, LINES, v) == CURIUMTOAD_NOT_BINARY);
}

int main(int argc, char **argv)
{
    if (argc != 2)
        fail("usage: answers FOLDER");
    folder = argv[1];
    HOLDS(curiumtoad_version() == CURIUMTOAD_VERSION);
    for (size_t i = 0; i < sizeof checks / sizeof checks[0]; i++) {
        use(checks[i].sample);
        HOLDS(curiumtoad_check(BUNDLE, SCRATCH, v) == checks[i].number);
    }
    openings();
    ancestries();
    exact_methods();
    sends();
    matrices(0x00);
    matrices(0xff);
    rough_sends();
    findings();
    resends();
    runs();
    listings();
    charts();
    printf("%d claims of the header, %d wrong\n", held, wrong);
    return wrong != 0;
}
