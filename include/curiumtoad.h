/* Curiumtoad from C, and from any language that calls C.
 *
 * The functions are those of crates/curiumtoad_c, whose contracts say of each what is said here and are proved: for whatever is passed, number, values,
 * scratch, row and text are those of the rules (crates/rules/specs) and of the listing (crates/lines/specs, crates/text/specs).
 *
 * Build and link, on Linux for processors of the level x86-64-v2; the archive needs no library beside the C library:
 *
 *     (cd crates/curiumtoad_c && rt lib)   writes crates/curiumtoad_c/out/libcuriumtoad_c.a
 *     cc -Iinclude program.c crates/curiumtoad_c/out/libcuriumtoad_c.a
 *
 * include/example.c is a program to begin with.
 *
 * A function returns CURIUMTOAD_OK where the call answers, else the number of the refusal or of the run's ending. Each call writes all eight values;
 * those that are not named below are 0. Numbers are tried in the order 1 to 9, 19, 20, 18, then the rest; those of a chart, 21, 22 and 23, in this order,
 * and those of a resend, 25, 26 and 27, likewise.
 *
 * bundle is the bundle's bytes, and size their count; it is never written. A function, a class, a signature or a method is its number in the bundle; a
 * function of fewer than three arguments has 0 at its unused places. Numbers that are not there are refused by 18, the line of a chart by 22, so any may be
 * passed.
 *
 * scratch holds at least CURIUMTOAD_SCRATCH_BYTES, row at least CURIUMTOAD_ROW_BYTES; with fewer the call is refused, by 19 or 20. What they hold before a
 * call does not matter. 1 to 9 and 19 leave the scratch as it was; else it has a bit for each a and b below 128, which is 1 where class a is under class b,
 * and 0 otherwise: bit b % 8 of byte 16 * a + b / 8, where bit 0 is the lowest. Bytes past the first 2,048, and past the first 128 of the row, are never
 * touched.
 *
 * text is the buffer of a listing or of a line of a chart; where it is too short for that the call is refused, by 20 or 23. Every refusal leaves it as it
 * was, and so are the bytes after what is written, which no zero byte ends.
 *
 * What a caller owes, as C has no types for it:
 *
 * - A pointer with a length is to that many bytes, which the caller may read, and write where there is no const. It is not null and points to some
 *   object even where the length is 0. values is to CURIUMTOAD_VALUE_COUNT aligned numbers.
 * - bundle, scratch, row, text and values do not overlap, and no one else writes them during the call.
 * - The stack has CURIUMTOAD_STACK_BYTES left. A call uses less than 85 kilobytes of them, a listing the most. This is measured and not proved.
 *
 * Nothing is kept between calls, and nothing is allocated. So any number of threads may call at once, each with its own scratch, row, text and values; a
 * bundle may be shared as long as no one writes it.
 */
#ifndef CURIUMTOAD_H
#define CURIUMTOAD_H

#include <stddef.h>
#include <stdint.h>

/* Raised by each change of the bundle's layout or of the operations of its code, of what scratch, row or values hold or how large they are, of the numbers
 * that a function returns, or of its arguments. */
#define CURIUMTOAD_VERSION 5

#define CURIUMTOAD_BUNDLE_BYTES 65535  /* the most that a bundle may have */
#define CURIUMTOAD_SCRATCH_BYTES 2048
#define CURIUMTOAD_ROW_BYTES 128
#define CURIUMTOAD_TEXT_BYTES 512      /* enough for the listing of any bundle */
#define CURIUMTOAD_LINE_BYTES 645      /* enough for any line of a chart */
#define CURIUMTOAD_VALUE_COUNT 8
#define CURIUMTOAD_STACK_BYTES 131072

#ifdef __cplusplus
extern "C" {
#endif

/* The numbers (docs/MANUAL.md, part 11). */
enum curiumtoad_number {
    CURIUMTOAD_OK = 0,

    /* The bundle does not open. 1 to 3 have no values, 4 to 9 the record. */
    CURIUMTOAD_BAD_LENGTH = 1,       /* fewer than 24 bytes, or more than CURIUMTOAD_BUNDLE_BYTES */
    CURIUMTOAD_BAD_DIRECTORY = 2,    /* sections that do not follow each other, or are not whole records */
    CURIUMTOAD_BAD_COUNTS = 3,       /* more records of a kind than there may be, or no class */
    CURIUMTOAD_BAD_CLASS = 4,
    CURIUMTOAD_BAD_FUNCTION = 5,
    CURIUMTOAD_BAD_SIGNATURE = 6,
    CURIUMTOAD_BAD_METHOD = 7,
    CURIUMTOAD_TWIN_METHOD = 8,      /* a method with the specialisers of an earlier one of its function */
    CURIUMTOAD_BAD_CODE = 9,         /* a method's code: an operation above 3, or an operand that names nothing; of a resend, one that is not 0 */

    /* A send fails, or breaks a signature. These have the send, and the signature before it from check and witness. */
    CURIUMTOAD_NO_METHOD = 10,       /* no method applies */
    CURIUMTOAD_AMBIGUOUS = 11,       /* none of those that apply leads; with the two highest that no other beats, higher first */
    CURIUMTOAD_NARROW_DECLARED = 12, /* a declared class does not hold its argument; with the method */
    CURIUMTOAD_WIDE_RESULT = 13,     /* the method's result class is not under the signature's; with the method */

    /* A body breaks a rule, as it does by 25 to 27. These have method and instruction; a send type call has no values with 16. */
    CURIUMTOAD_BAD_STACK = 14,       /* too few or too many values */
    CURIUMTOAD_ABSTRACT_NEW = 15,    /* an abstract class made */
    CURIUMTOAD_NO_LICENCE = 16,      /* a send that no signature licenses */
    CURIUMTOAD_LOOSE_RESULT = 17,    /* what is left at the end need not be of the method's result class */

    /* The call is wrong. These have no values, but for 18 from run_accepted. */
    CURIUMTOAD_ABSENT = 18,          /* an absent number, an unused place that is not 0, an abstract class, a tuple not covered */
    CURIUMTOAD_SHORT_SCRATCH = 19,
    CURIUMTOAD_SHORT_BUFFER = 20,    /* the row, or the buffer of a listing */
    CURIUMTOAD_NOT_BINARY = 21,      /* a chart of a function that has not two arguments */
    CURIUMTOAD_NO_LINE = 22,         /* a line past the last of the chart */
    CURIUMTOAD_SHORT_LINE = 23,      /* the buffer of a line */
    CURIUMTOAD_NO_CONCRETE = 24,     /* an upper class with no concrete class under it */

    /* A resend fails, in a check or in a run. It hands the arguments of a method on to one that this method overrides: another of its function, each of
     * whose specialisers is above the method's own. These have the method that resends, and the instruction. */
    CURIUMTOAD_NO_OVERRIDDEN = 25,   /* the method overrides no other */
    CURIUMTOAD_AMBIGUOUS_RESEND = 26, /* none of those that it overrides leads */
    CURIUMTOAD_NARROW_TARGET = 27    /* a declared class of the one that leads does not hold the argument */
};

/* Which of the values holds what. */
enum curiumtoad_place {
    /* open */
    CURIUMTOAD_AT_CLASSES = 0,
    CURIUMTOAD_AT_FUNCTIONS = 1,
    CURIUMTOAD_AT_SIGNATURES = 2,
    CURIUMTOAD_AT_METHODS = 3,

    /* ancestry */
    CURIUMTOAD_AT_ANCESTRY = 0,

    /* lookup: the method found, and 1 where it is exact, else 0 */
    CURIUMTOAD_AT_FOUND = 0,
    CURIUMTOAD_AT_EXACT = 1,

    /* body: where the code begins in the bundle, and its bytes */
    CURIUMTOAD_AT_CODE_START = 0,
    CURIUMTOAD_AT_CODE_LENGTH = 1,

    /* listing; chart */
    CURIUMTOAD_AT_TEXT_LENGTH = 0,
    CURIUMTOAD_AT_LINE_LENGTH = 0,

    /* rough: the answer, and the method where it is one */
    CURIUMTOAD_AT_ROUGH = 0,
    CURIUMTOAD_AT_ROUGH_METHOD = 1,

    /* run and run_accepted; the steps of a run that began are there however it ends */
    CURIUMTOAD_AT_ENDING = 0,
    CURIUMTOAD_AT_CLASS = 1,
    CURIUMTOAD_AT_STEPS = 7,

    /* 4 to 9 */
    CURIUMTOAD_AT_RECORD = 0,

    /* 10 to 12 from lookup and run; of the two rivals of 11 METHOD is the higher, RIVAL the lower */
    CURIUMTOAD_AT_SEND_FUNCTION = 0,
    CURIUMTOAD_AT_SEND_A0 = 1,
    CURIUMTOAD_AT_SEND_A1 = 2,
    CURIUMTOAD_AT_SEND_A2 = 3,
    CURIUMTOAD_AT_SEND_METHOD = 4,
    CURIUMTOAD_AT_SEND_RIVAL = 5,

    /* 10 to 13 from check, witness and run_accepted; the rivals likewise */
    CURIUMTOAD_AT_BROKEN_SIGNATURE = 0,
    CURIUMTOAD_AT_BROKEN_FUNCTION = 1,
    CURIUMTOAD_AT_BROKEN_A0 = 2,
    CURIUMTOAD_AT_BROKEN_A1 = 3,
    CURIUMTOAD_AT_BROKEN_A2 = 4,
    CURIUMTOAD_AT_BROKEN_METHOD = 5,
    CURIUMTOAD_AT_BROKEN_RIVAL = 6,

    /* 14 to 17 and 25 to 27; the end of a body counts as one instruction more */
    CURIUMTOAD_AT_BODY_METHOD = 0,
    CURIUMTOAD_AT_BODY_INSTRUCTION = 1,

    /* 18 from run_accepted */
    CURIUMTOAD_AT_REASON = 0
};

/* What an ancestry call answers. */
enum curiumtoad_ancestry_answer {
    CURIUMTOAD_NEITHER = 0,          /* class a is not under class b; b may be under a */
    CURIUMTOAD_SAME = 1,             /* they are one class */
    CURIUMTOAD_HEIR = 2              /* class a is under class b and is another class */
};

/* What a rough call answers. */
enum curiumtoad_rough_answer {
    CURIUMTOAD_ROUGH_ONE = 0,        /* every tuple finds the method at CURIUMTOAD_AT_ROUGH_METHOD */
    CURIUMTOAD_ROUGH_MAY_FAIL = 1,   /* a lookup of some tuple gives 10 or 11, whatever the others find */
    CURIUMTOAD_ROUGH_SEVERAL = 2     /* every tuple finds a method, and not all find the same */
};

/* How a run ends that nothing stopped. */
enum curiumtoad_ending {
    CURIUMTOAD_ENDING_VALUE = 0,     /* with a value, whose class is at CURIUMTOAD_AT_CLASS */
    CURIUMTOAD_ENDING_SPENT = 1,     /* the count of steps was used up */
    CURIUMTOAD_ENDING_DEEP = 2       /* a 33rd frame was needed, for a send or a resend */
};

/* Why run_accepted gives 18. */
enum curiumtoad_reason {
    CURIUMTOAD_REASON_WRONG_CALL = 0,
    CURIUMTOAD_REASON_NOT_COVERED = 1
};

/* The version that the library was built with. Where it is not CURIUMTOAD_VERSION, the caller was compiled with another header: make no other call. */
uint32_t curiumtoad_version(void);

/* Opening. 0: the counts of classes, functions, signatures and methods. Else 1 to 9. */
uint8_t curiumtoad_open(const uint8_t *bundle, size_t size, uint64_t *values);

/* Ancestry. 0: how class a stands to class b, the same, a proper heir, or neither. Else 1 to 9, 18, 19. */
uint8_t curiumtoad_ancestry(const uint8_t *bundle, size_t size, uint8_t *scratch, size_t scratch_size,
                            uint64_t a, uint64_t b, uint64_t *values);

/* Lookup, abstract classes too. 0: the method that the send finds, and whether it is exact: its specialiser at each place that the function uses is the
 * class of the send there, so that a method without arguments always is. Declared classes play no part. Else 1 to 11, 18, 19. */
uint8_t curiumtoad_lookup(const uint8_t *bundle, size_t size, uint8_t *scratch, size_t scratch_size,
                          uint64_t function, uint64_t a0, uint64_t a1, uint64_t a2, uint64_t *values);

/* A send whose arguments are known only roughly: each is under the upper class at its place, a0, a1 or a2, which may be abstract. Every tuple counts that has a
 * concrete class under the upper one at each place, the upper one itself where it is concrete; a function of no arguments has the empty tuple alone. 0: by
 * what a lookup of each tuple finds, one method, may fail, or several; signatures and declared classes play no part. Where the upper classes give way to
 * classes under them and the call still answers, one stays that method, and several becomes several or one. Else 1 to 9, 18, 19, 24. */
uint8_t curiumtoad_rough(const uint8_t *bundle, size_t size, uint8_t *scratch, size_t scratch_size,
                         uint64_t function, uint64_t a0, uint64_t a1, uint64_t a2, uint64_t *values);

/* The static type of a send with arguments of these classes. 0: byte b of the first 128 of the row is 1 where class b is in the type, else 0.
 * Else 1 to 9, 16, 18, 19, 20, and the row is as it was. */
uint8_t curiumtoad_send_type(const uint8_t *bundle, size_t size, uint8_t *scratch, size_t scratch_size,
                             uint8_t *row, size_t row_size,
                             uint64_t function, uint64_t a0, uint64_t a1, uint64_t a2, uint64_t *values);

/* The check of the whole bundle. 0: accepted. Else 1 to 17, 19, 25 to 27: the lowest broken signature with its first broken tuple, by class
 * numbers with the leftmost argument turning slowest, or with none the lowest broken method and its first broken instruction. */
uint8_t curiumtoad_check(const uint8_t *bundle, size_t size, uint8_t *scratch, size_t scratch_size, uint64_t *values);

/* The coverage rule for one signature and a tuple of concrete classes that it covers. 0: it holds. Else 1 to 13, 18, 19. */
uint8_t curiumtoad_witness(const uint8_t *bundle, size_t size, uint8_t *scratch, size_t scratch_size,
                           uint64_t signature, uint64_t a0, uint64_t a1, uint64_t a2, uint64_t *values);

/* The code of a method. 0: where it begins, counted from bundle, and its bytes, two to an instruction. Else 1 to 9, 18. */
uint8_t curiumtoad_body(const uint8_t *bundle, size_t size, uint64_t method, uint64_t *values);

/* A run of a send with concrete classes, of at most count steps. The bundle has to open, not to be accepted. 0: the ending, a value, Spent or Deep.
 * 10, 11, 12, 14, 15, 25 to 27: what stopped it. Each of these has the steps made. Else 1 to 9, 18, 19, without steps. */
uint8_t curiumtoad_run(const uint8_t *bundle, size_t size, uint8_t *scratch, size_t scratch_size,
                       uint64_t function, uint64_t a0, uint64_t a1, uint64_t a2, uint32_t count, uint64_t *values);

/* The same for an accepted bundle and a send that some signature covers, where nothing stops a run. 0: as for a run. A call that is wrong: 1 to 9, 18,
 * 19. Then, a bundle that is not accepted: the number and values of the check. Then, a send that no signature covers: 18 with the reason. */
uint8_t curiumtoad_run_accepted(const uint8_t *bundle, size_t size, uint8_t *scratch, size_t scratch_size,
                                uint64_t function, uint64_t a0, uint64_t a1, uint64_t a2, uint32_t count, uint64_t *values);

/* The listing of the bundle as text (docs/MANUAL.md, part 12), whether it opens or not. 0: the length of the text, which is at the start of the buffer.
 * Else 20. It takes no scratch, as it has its own. */
uint8_t curiumtoad_listing(const uint8_t *bundle, size_t size, uint8_t *text, size_t text_size, uint64_t *values);

/* A line of the chart of a function of two arguments (docs/MANUAL.md, part 13). The bundle has to open, not to be accepted. A chart over n concrete classes
 * has the lines 0 to n, each of 5 + 5 * n bytes, newline included: a field of four places, then n times a blank and such a field, blanks in front of what is
 * shorter. Line 0 is the head, an empty field and the classes by rising number. Line k shows the k-th class, counted from 1, then for each class as second
 * argument beside it the method that a lookup finds, - for 10, * for 11. 0: the length of the line, which is at the start of the buffer. Else 1 to 9, 18, 19,
 * 21, 22, 23. */
uint8_t curiumtoad_chart(const uint8_t *bundle, size_t size, uint8_t *scratch, size_t scratch_size,
                         uint8_t *text, size_t text_size, uint64_t function, uint64_t line, uint64_t *values);

#ifdef __cplusplus
}
#endif

#endif
