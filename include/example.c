/* Lists a bundle, and runs a send of it if it is accepted: a program to begin with.
 *
 *     cc -std=c99 -Wall -Wextra -Iinclude include/example.c crates/curiumtoad_c/out/libcuriumtoad_c.a -o example
 *     ./example bundles/chart-4.bundle 1000 0 2 4
 *
 * usage: example BUNDLE COUNT FUNCTION [CLASS]...
 * BUNDLE is a file, COUNT the most steps of the run, FUNCTION with up to three CLASSes the send. Exit status: 0 the run ended with a value, 1 it was cut
 * short, 2 the bundle is refused, 3 the send is refused, 4 something else failed.
 */
#include "curiumtoad.h"

#include <errno.h>
#include <inttypes.h>
#include <stdio.h>
#include <stdlib.h>

enum status { ENDED = 0, CUT_SHORT = 1, BUNDLE_REFUSED = 2, SEND_REFUSED = 3, FAILED = 4 };

static int failed(const char *what)
{
    fprintf(stderr, "example: %s\n", what);
    return FAILED;
}

/* Reads the file, as far as there is room. Fewer bytes than that are the whole file only if there was no error. */
static int read_file(const char *path, uint8_t *bytes, size_t room, size_t *size)
{
    FILE *file = fopen(path, "rb");
    if (file == NULL)
        return 0;
    *size = fread(bytes, 1, room, file);
    int whole = !ferror(file);
    fclose(file);
    return whole;
}

/* Reads a number up to the greatest. strtoull would take a sign or a blank before it. */
static int read_number(const char *word, uint64_t greatest, uint64_t *number)
{
    char *end = NULL;
    if (*word < '0' || *word > '9')
        return 0;
    errno = 0;
    *number = strtoull(word, &end, 10);
    return errno == 0 && *end == '\0' && *number <= greatest;
}

/* Says what run_accepted answered. There is no branch for a send or a resend that fails within the run, as none does: 10 to 17 and 25 to 27 are what the
 * check found. */
static int report(int number, const uint64_t *values)
{
    switch (number) {
    case CURIUMTOAD_OK:
        if (values[CURIUMTOAD_AT_ENDING] == CURIUMTOAD_ENDING_VALUE) {
            printf("value of class %" PRIu64 ", steps %" PRIu64 "\n", values[CURIUMTOAD_AT_CLASS], values[CURIUMTOAD_AT_STEPS]);
            return ENDED;
        }
        printf("%s, steps %" PRIu64 "\n", values[CURIUMTOAD_AT_ENDING] == CURIUMTOAD_ENDING_SPENT ? "spent" : "deep", values[CURIUMTOAD_AT_STEPS]);
        return CUT_SHORT;
    case CURIUMTOAD_BAD_LENGTH: case CURIUMTOAD_BAD_DIRECTORY: case CURIUMTOAD_BAD_COUNTS:
        printf("no bundle: %d\n", number);
        return BUNDLE_REFUSED;
    case CURIUMTOAD_BAD_CLASS: case CURIUMTOAD_BAD_FUNCTION: case CURIUMTOAD_BAD_SIGNATURE:
    case CURIUMTOAD_BAD_METHOD: case CURIUMTOAD_TWIN_METHOD: case CURIUMTOAD_BAD_CODE:
        printf("no bundle: %d, record %" PRIu64 "\n", number, values[CURIUMTOAD_AT_RECORD]);
        return BUNDLE_REFUSED;
    case CURIUMTOAD_NO_METHOD: case CURIUMTOAD_AMBIGUOUS: case CURIUMTOAD_NARROW_DECLARED: case CURIUMTOAD_WIDE_RESULT:
        printf("not accepted: %d, signature %" PRIu64 "\n", number, values[CURIUMTOAD_AT_BROKEN_SIGNATURE]);
        return BUNDLE_REFUSED;
    case CURIUMTOAD_BAD_STACK: case CURIUMTOAD_ABSTRACT_NEW: case CURIUMTOAD_NO_LICENCE: case CURIUMTOAD_LOOSE_RESULT:
    case CURIUMTOAD_NO_OVERRIDDEN: case CURIUMTOAD_AMBIGUOUS_RESEND: case CURIUMTOAD_NARROW_TARGET:
        printf("not accepted: %d, method %" PRIu64 " at %" PRIu64 "\n", number,
               values[CURIUMTOAD_AT_BODY_METHOD], values[CURIUMTOAD_AT_BODY_INSTRUCTION]);
        return BUNDLE_REFUSED;
    case CURIUMTOAD_ABSENT:
        puts(values[CURIUMTOAD_AT_REASON] == CURIUMTOAD_REASON_NOT_COVERED ? "no signature covers the send" : "no such send");
        return SEND_REFUSED;
    default:
        return failed("the scratch is too short");
    }
}

int main(int argc, char **argv)
{
    /* One byte more than a bundle may have, so that the library sees and refuses a longer file. */
    static uint8_t bundle[CURIUMTOAD_BUNDLE_BYTES + 1];
    /* Threads may share the bundle, but each has these of its own. */
    uint8_t scratch[CURIUMTOAD_SCRATCH_BYTES], text[CURIUMTOAD_TEXT_BYTES];
    uint64_t values[CURIUMTOAD_VALUE_COUNT];
    uint64_t count, send[4] = {0, 0, 0, 0};
    size_t size;

    if (curiumtoad_version() != CURIUMTOAD_VERSION)
        return failed("compiled with the header of another version");
    if (argc < 4 || argc > 7)
        return failed("usage: example BUNDLE COUNT FUNCTION [CLASS]...");
    if (!read_number(argv[2], UINT32_MAX, &count))
        return failed("COUNT is a number below 4294967296");
    for (int i = 3; i < argc; i++)
        if (!read_number(argv[i], UINT64_MAX, &send[i - 3]))
            return failed("FUNCTION and CLASS are numbers");
    if (!read_file(argv[1], bundle, sizeof bundle, &size))
        return failed("BUNDLE cannot be read");

    if (curiumtoad_listing(bundle, size, text, sizeof text, values) != CURIUMTOAD_OK)
        return failed("the text's buffer is too short");
    fwrite(text, 1, (size_t)values[CURIUMTOAD_AT_TEXT_LENGTH], stdout);
    int number = curiumtoad_run_accepted(bundle, size, scratch, sizeof scratch, send[0], send[1], send[2], send[3], (uint32_t)count, values);
    int status = report(number, values);
    return fflush(stdout) == 0 && !ferror(stdout) ? status : failed("the output cannot be written");
}
