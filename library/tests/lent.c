/* Tests the calls that end in _in, in memory of many sizes between pages that can't be touched: each
 * must do what its other form does, or have no memory, and give the memory back. Prints the least
 * memory that is enough, and compares it with capkit.h. usage: lent FILE (one expression per line) */
#include <capkit.h>
#include <signal.h>
#include <stdio.h>
#include <sys/time.h>
#include "guard.h"

enum { COMPILE, BOUND, EXPLAIN, READ, WRITE, CALLS, TEXT = CAPKIT_MOST_TEXT + 1 };

static const char *const names[] = {"compile", "bound", "explain", "read", "write"};

/* What a call is given, and its results. */
struct given {
    const char *text; /* an expression, or a listing */
    const struct capkit_insn *insns;
    size_t count;
};

struct left {
    uint32_t result;
    size_t number;
    struct capkit_insn insns[CAPKIT_MOST_INSNS];
    char text[1 << 20];
};

static struct left plain, lent;
static uint8_t *memory, *handlers;
static size_t calls, refused, wrong;
static volatile sig_atomic_t handled, handled_wrong;

static void without(int which, const struct given *g, struct left *to)
{
    size_t length = strlen(g->text), room = sizeof to->text, *n = &to->number;
    to->result = which == COMPILE ? capkit_compile(g->text, length, 1, to->insns, CAPKIT_MOST_INSNS, n)
                 : which == BOUND ? capkit_bound(g->text, length, n)
                 : which == EXPLAIN ? capkit_explain(g->text, length, to->text, room, n)
                 : which == READ
                     ? capkit_read_listing(g->text, length, to->insns, CAPKIT_MOST_INSNS, n)
                     : capkit_write_listing(g->insns, g->count, to->text, room, n);
}

static void within(int which, struct capkit_memory *m, const struct given *g, struct left *to)
{
    size_t length = strlen(g->text), room = sizeof to->text, most = CAPKIT_MOST_INSNS;
    size_t *n = &to->number;
    to->result = which == COMPILE ? capkit_compile_in(m, g->text, length, 1, to->insns, most, n)
                 : which == BOUND ? capkit_bound_in(m, g->text, length, n)
                 : which == EXPLAIN ? capkit_explain_in(m, g->text, length, to->text, room, n)
                 : which == READ ? capkit_read_listing_in(m, g->text, length, to->insns, most, n)
                                 : capkit_write_listing_in(m, g->insns, g->count, to->text, room, n);
}

/* Whether `size` bytes are enough for a call whose results without `_in` are `plain`. */
static int is_enough(int which, size_t size, const struct given *g)
{
    struct capkit_memory m = {size ? place(memory, (size + 15) / 16 * 16) : NULL, size}, was = m;
    within(which, &m, g, &lent);
    calls++;
    wrong += m.start != was.start || m.size != was.size;
    if (lent.result == CAPKIT_NO_MEMORY) {
        refused++;
        wrong += lent.number != 0;
        return 0;
    }
    wrong += lent.result != plain.result || lent.number != plain.number;
    if (plain.result == CAPKIT_OK && (which == COMPILE || which == READ))
        wrong += memcmp(lent.insns, plain.insns, plain.number * sizeof *plain.insns) != 0;
    if (plain.result == CAPKIT_OK && (which == EXPLAIN || which == WRITE))
        wrong += strcmp(lent.text, plain.text) != 0;
    return 1;
}

/* The least memory that is enough, up to a sixty-fourth of it. */
static size_t least(int which, const struct given *g)
{
    static const size_t small[] = {0, 1, 15, 16, 17, 31, 448, 496, 4079, 4080, 4081, 4096};
    size_t low = 0, high = GUARDED, i;
    without(which, g, &plain);
    for (i = 0; i < sizeof small / sizeof *small; i++)
        is_enough(which, small[i], g);
    wrong += !is_enough(which, GUARDED, g);
    while (high - low > high / 64 + 1) {
        size_t middle = low + (high - low) / 2;
        if (is_enough(which, middle, g))
            high = middle;
        else
            low = middle;
    }
    return high;
}

/* The least memory for all five calls, on an expression, its program and its listing. */
static size_t least_of_all(const char *title, const char *text)
{
    static struct left program, listing;
    struct given g = {text, program.insns, 0}, read = {listing.text, NULL, 0};
    size_t most = 0;
    int which;
    without(COMPILE, &g, &program);
    g.count = program.result == CAPKIT_OK ? program.number : 0;
    without(WRITE, &g, &listing);
    printf("%s: %zu bytes, %zu instructions;", title, strlen(text), g.count);
    for (which = 0; which < CALLS; which++) {
        size_t size = least(which, which == READ ? &read : &g);
        printf(" %s %zu", names[which], size);
        most = size > most ? size : most;
    }
    puts("");
    return most;
}

/* `count` terms, joined by `or`; or no expression if they are too long. */
static char *terms(size_t count, const char *term)
{
    static char text[TEXT + 100];
    size_t length = 0, i;
    for (i = 0; i < count && length < TEXT; i++) {
        length += sprintf(text + length, "%s", i ? " or " : "");
        length += sprintf(text + length, term, i % 250 + 1, i / 250);
    }
    return text;
}

/* As many terms as are an expression. */
static char *most_terms(const char *term)
{
    size_t low = 1, high = TEXT, number;
    while (high - low > 1) {
        size_t middle = (low + high) / 2;
        char *text = terms(middle, term);
        if (capkit_bound(text, strlen(text), &number) == CAPKIT_OK)
            low = middle;
        else
            high = middle;
    }
    return terms(low, term);
}

/* A handler compiles in memory of its own. */
static void handle(int number)
{
    static struct capkit_insn insns[64];
    struct capkit_memory m = {handlers, GUARDED};
    size_t count;
    (void)number;
    handled_wrong += capkit_compile_in(&m, "tcp port 80", 11, 1, insns, 64, &count) || count != 20 ||
                     m.start != handlers || m.size != GUARDED;
    handled++;
}

/* Signals come while the program compiles with malloc. */
static void signals(void)
{
    struct itimerval often = {{0, 500}, {0, 500}}, never = {{0, 0}, {0, 0}};
    struct given g = {terms(100, "host 10.1.%zu.%zu"), NULL, 0};
    handlers = guarded();
    without(COMPILE, &g, &plain);
    signal(SIGALRM, handle);
    setitimer(ITIMER_REAL, &often, NULL);
    while (handled < 200) {
        without(COMPILE, &g, &lent);
        wrong += lent.number != plain.number ||
                 memcmp(lent.insns, plain.insns, plain.number * sizeof *plain.insns) != 0;
    }
    setitimer(ITIMER_REAL, &never, NULL);
    wrong += handled_wrong;
}

int main(int argc, char **argv)
{
    static const char *const large[] = {
        "host 10.%zu.0.%zu", "host 2001:db8::%zu:%zu", "port %zu", "net 10.%zu.%zu.0/24",
        "ip[%zu]=%zu", "ether[%zu:2]+ip[2:2]>%zu", "tcp[%zu]+1=%zu", "1=%zu", "tcp", "not ip6",
        "ip", "ip[0]=1", "ether host 0:0:0:0:%zu:%zu", "portrange %zu-9999"};
    static char line[TEXT];
    FILE *f = argc == 2 ? fopen(argv[1], "r") : NULL;
    size_t i;
    if (f == NULL)
        return 2;
    seed = 1;
    memory = guarded();
    wrong += least_of_all("50 hosts", terms(50, "host 10.%zu.%zu.7")) > 192 << 10;
    wrong += least_of_all("300 ports", terms(300, "port %zu%zu")) > 768 << 10;
    for (i = 0; i < sizeof large / sizeof *large; i++)
        wrong += least_of_all(large[i], most_terms(large[i])) > 8 << 20;
    while (fgets(line, sizeof line, f)) {
        line[strcspn(line, "\n")] = 0;
        wrong += least_of_all(line, line) > 24 << 10;
    }
    least_of_all("refused", "tcp prt 80");
    least_of_all("not UTF-8", "tcp \xff");
    signals();
    printf("%zu calls, %zu without enough memory, %zu wrong\n", calls, refused, wrong);
    return wrong != 0;
}
