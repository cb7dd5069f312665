/* Makes the same calls on several threads at once, which share the bundle and have no more stack than the header says, and then on the main thread. Fails
 * where a number, a value or a byte of scratch, row, text or line differs, and prints the most stack that a thread used.
 *
 * usage: threads BUNDLE...
 */
#define _DEFAULT_SOURCE /* for MAP_ANONYMOUS */
#include "bundle.h"

#include <pthread.h>
#include <string.h>
#include <sys/mman.h>
#include <unistd.h>

enum { THREADS = 4, MOST_CALLS = 1000, STEPS = 1000, UNTOUCHED = 0xa5 };

/* What calls on a bundle are lent, and what they gave. */
struct calls {
    const struct bundle *bundle;
    size_t count;
    uint8_t numbers[MOST_CALLS];
    uint64_t values[MOST_CALLS][CURIUMTOAD_VALUE_COUNT];
    uint8_t scratch[CURIUMTOAD_SCRATCH_BYTES];
    uint8_t row[CURIUMTOAD_ROW_BYTES];
    uint8_t text[CURIUMTOAD_TEXT_BYTES];
    uint8_t line[CURIUMTOAD_LINE_BYTES];
};

static uint64_t *next_values(struct calls *c)
{
    if (c->count == MOST_CALLS)
        fail("more calls than there is room for");
    return c->values[c->count];
}

static void gave(struct calls *c, uint8_t number)
{
    c->numbers[c->count++] = number;
}

static void make_send(struct calls *c, uint64_t number, uint64_t a0, uint64_t a1, uint64_t a2)
{
    const uint8_t *bytes = c->bundle->bytes;
    size_t size = c->bundle->size;
    gave(c, curiumtoad_lookup(bytes, size, c->scratch, sizeof c->scratch, number, a0, a1, a2, next_values(c)));
    gave(c, curiumtoad_rough(bytes, size, c->scratch, sizeof c->scratch, number, a0, a1, a2, next_values(c)));
    gave(c, curiumtoad_send_type(bytes, size, c->scratch, sizeof c->scratch, c->row, sizeof c->row, number, a0, a1, a2, next_values(c)));
    gave(c, curiumtoad_witness(bytes, size, c->scratch, sizeof c->scratch, number, a0, a1, a2, next_values(c)));
    gave(c, curiumtoad_run(bytes, size, c->scratch, sizeof c->scratch, number, a0, a1, a2, STEPS, next_values(c)));
    gave(c, curiumtoad_run_accepted(bytes, size, c->scratch, sizeof c->scratch, number, a0, a1, a2, STEPS, next_values(c)));
}

/* Every call, with small numbers, of which some are absent. */
static void *make_calls(void *lent)
{
    struct calls *c = lent;
    const uint8_t *bytes = c->bundle->bytes;
    size_t size = c->bundle->size;
    c->count = 0;
    gave(c, curiumtoad_listing(bytes, size, c->text, sizeof c->text, next_values(c)));
    gave(c, curiumtoad_open(bytes, size, next_values(c)));
    gave(c, curiumtoad_check(bytes, size, c->scratch, sizeof c->scratch, next_values(c)));
    for (uint64_t number = 0; number < 3; number++) {
        gave(c, curiumtoad_body(bytes, size, number, next_values(c)));
        for (uint64_t a0 = 0; a0 < 5; a0++) {
            gave(c, curiumtoad_ancestry(bytes, size, c->scratch, sizeof c->scratch, a0, number, next_values(c)));
            gave(c, curiumtoad_chart(bytes, size, c->scratch, sizeof c->scratch, c->line, sizeof c->line, number, a0, next_values(c)));
            for (uint64_t a1 = 0; a1 < 5; a1++)
                for (uint64_t a2 = 0; a2 < 2; a2++)
                    make_send(c, number, a0, a1, a2);
        }
    }
    return NULL;
}

static int equal(const struct calls *a, const struct calls *b)
{
    return a->count == b->count && memcmp(a->numbers, b->numbers, a->count) == 0 && memcmp(a->values, b->values, a->count * sizeof a->values[0]) == 0
        && memcmp(a->scratch, b->scratch, sizeof a->scratch) == 0 && memcmp(a->row, b->row, sizeof a->row) == 0
        && memcmp(a->text, b->text, sizeof a->text) == 0 && memcmp(a->line, b->line, sizeof a->line) == 0;
}

/* The stack of a thread: so many bytes, and below them a page that ends the program if it is touched. */
static uint8_t *new_stack(void)
{
    size_t guard = (size_t)sysconf(_SC_PAGESIZE);
    uint8_t *lowest = mmap(NULL, guard + CURIUMTOAD_STACK_BYTES, PROT_READ | PROT_WRITE, MAP_PRIVATE | MAP_ANONYMOUS, -1, 0);
    if (lowest == MAP_FAILED || mprotect(lowest, guard, PROT_NONE) != 0)
        fail("no memory for a stack");
    memset(lowest + guard, UNTOUCHED, CURIUMTOAD_STACK_BYTES);
    return lowest + guard;
}

static size_t used(const uint8_t *stack)
{
    size_t untouched = 0;
    while (untouched < CURIUMTOAD_STACK_BYTES && stack[untouched] == UNTOUCHED)
        untouched++;
    return CURIUMTOAD_STACK_BYTES - untouched;
}

static pthread_t start(struct calls *calls, uint8_t *stack)
{
    pthread_attr_t attributes;
    pthread_t thread;
    if (pthread_attr_init(&attributes) != 0 || pthread_attr_setstack(&attributes, stack, CURIUMTOAD_STACK_BYTES) != 0
        || pthread_create(&thread, &attributes, make_calls, calls) != 0)
        fail("no thread with this stack");
    pthread_attr_destroy(&attributes);
    return thread;
}

int main(int argc, char **argv)
{
    static struct bundle bundle;
    static struct calls by_main, by_thread[THREADS];
    uint8_t *stacks[THREADS];
    size_t calls = 0, different = 0, most = 0;
    for (int i = 0; i < THREADS; i++)
        stacks[i] = new_stack();
    for (int argument = 1; argument < argc; argument++) {
        pthread_t threads[THREADS];
        read_bundle(argv[argument], &bundle);
        /* The threads come first, so that what only a first call does is done on their stacks. */
        for (int i = 0; i < THREADS; i++) {
            by_thread[i].bundle = &bundle;
            threads[i] = start(&by_thread[i], stacks[i]);
        }
        for (int i = 0; i < THREADS; i++)
            pthread_join(threads[i], NULL);
        by_main.bundle = &bundle;
        make_calls(&by_main);
        calls += by_main.count;
        for (int i = 0; i < THREADS; i++) {
            if (!equal(&by_thread[i], &by_main)) {
                printf("different on a thread: %s\n", argv[argument]);
                different++;
            }
            if (most < used(stacks[i]))
                most = used(stacks[i]);
        }
    }
    printf("%zu calls, each on %d threads, %zu differences; at most %zu of %d bytes of stack used\n",
           calls, THREADS, different, most, CURIUMTOAD_STACK_BYTES);
    return calls == 0 || different != 0;
}
