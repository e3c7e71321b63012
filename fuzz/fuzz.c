// Calls the library with sheets and areas of every kind and looks at what it leaves: fuzz COUNT SEED [FIRST]. See docs/FUZZ.md.
#include "fuzz.h"
#include <signal.h>
#include <stdio.h>
#include <stdlib.h>
#include <string.h>
#include <sys/time.h>
#include <unistd.h>

enum { NUMBERS = HEMOKATU_HEAP_USED_UP + 1, GROUP = 8, SECONDS = 10 };

static uint64_t seed, call, tally[NUMBERS];
static uint8_t *kept; // both lists of a first call

// ---- one call

static void stop(const char *what) {
    fprintf(stderr, "seed %llu, call %llu: %s\n", (unsigned long long)seed, (unsigned long long)call, what);
    abort();
}

static HemokatuAnswered decode(const Lent *c) {
    void *const *p = c->at;
    const size_t *n = c->entries;
    fill_lists(c);
    return hemokatu_decode(c->sheet, c->sheet_len, p[LABELS], n[LABELS], p[CAME_FROM], n[CAME_FROM], p[ENTRIES], n[ENTRIES], p[LINKS], n[LINKS],
                           p[COVERED], n[COVERED], p[COVERAGE], n[COVERAGE], p[IDS], n[IDS], p[LENGTHS], n[LENGTHS]);
}

// what stands in the work areas before a call
static void soil(const Lent *c) {
    for (int i = 0; i < IDS; i++) {
        int byte = one_in(3) ? 0xFF : (int)below(256);
        if (c->entries[i]) memset(c->at[i], byte, 8 * c->entries[i]);
    }
}

static void keep(const Lent *c, uint8_t *to, int list) {
    if (c->entries[list]) memcpy(to, c->at[list], 8 * c->entries[list]);
}

static int same(const Lent *c, const uint8_t *as, int list) { return c->entries[list] == 0 || memcmp(as, c->at[list], 8 * c->entries[list]) == 0; }

// the same again elsewhere, with other content in the work areas
static void call_again(Lent *c, const HemokatuAnswered *r) {
    uint8_t *lengths = kept + 8 * most_entries(IDS);
    keep(c, kept, IDS);
    keep(c, lengths, LENGTHS);
    lend_areas(c);
    soil(c);
    HemokatuAnswered again = decode(c);
    if (memcmp(&again, r, sizeof again) || !same(c, kept, IDS) || !same(c, lengths, LENGTHS)) stop("another answer the second time");
    if (slack_fault(c)) stop("an entry beside an area was written the second time");
}

static HemokatuAnswered call_once(Lent *c) {
    lend_areas(c);
    if (one_in(4)) soil(c);
    HemokatuAnswered r = decode(c);
    const char *f = call_fault(c, &r);
    if (f) stop(f);
    tally[r.number]++;
    if (one_in(8)) call_again(c, &r);
    return r;
}

// ---- sizes of areas

static size_t one_size(size_t least, uint32_t mode) {
    switch (mode) {
    case 0: return least;
    case 1: return least + below(9);
    default: {
        size_t sizes[] = {0, 1, least ? least - 1 : 0, least, least + 1, below(2 * (uint32_t)least + 2)};
        return sizes[below(6)];
    }
    }
}

// The areas' sizes for a sheet of these counts: just enough, more, one of them short, or anything; heaps from one entry on.
static void draw_sizes(Lent *c, size_t points, size_t nodes) {
    uint32_t mode = below(16), other = below(16);
    HemokatuSizes least = hemokatu_sizes(points, nodes);
    size_t heap = one_in(3) ? 1 + below(16) : 256 + below(256);
    if (nodes > 24 && !one_in(4)) heap = 1 << 13;
    for (int i = 0; i < AREAS; i++) {
        size_t n = i == LABELS ? 2 * least.node : i == CAME_FROM ? least.node : i <= LINKS ? 2 * heap : least.list;
        n = one_size(n, mode < 8 ? 0 : mode < 14 ? 1 : 2);
        if (mode == 0 && other == (uint32_t)i) n = n ? n - 1 : 0;
        if (mode == 1 && other == (uint32_t)i && one_in(64)) n = most_entries(i);
        c->entries[i] = n < most_entries(i) ? n : most_entries(i);
    }
}

static void make_memory(void) {
    make_rooms();
    make_patterns();
    kept = malloc(2 * 8 * most_entries(IDS));
    if (!kept) exit(2);
}

// Says how often each number was answered, and gives whether one never was.
static int report(void) {
    uint64_t calls = 0, refused = 0;
    int numbers = 0;
    for (int i = 0; i < NUMBERS; i++) {
        printf("%2d: %llu\n", i, (unsigned long long)tally[i]);
        calls += tally[i], numbers += tally[i] > 0;
        if (i >= HEMOKATU_SHORT && i <= HEMOKATU_RULES) refused += tally[i];
    }
    printf("%llu calls without a fault, %llu with a well-formed sheet\n", (unsigned long long)calls, (unsigned long long)(calls - refused));
    return numbers < NUMBERS;
}

#ifdef LIBFUZZER

// ---- libFuzzer: the bytes are the sheet; their sum gives the areas. What was answered counts as coverage, since the library has no counters.

__attribute__((section("__libfuzzer_extra_counters"))) static uint8_t answered[1 << 14];

size_t LLVMFuzzerMutate(uint8_t *data, size_t size, size_t most);
size_t LLVMFuzzerCustomMutator(uint8_t *data, size_t size, size_t most, unsigned from);
int LLVMFuzzerInitialize(int *argc, char ***argv);
int LLVMFuzzerTestOneInput(const uint8_t *data, size_t size);

size_t LLVMFuzzerCustomMutator(uint8_t *data, size_t size, size_t most, unsigned from) {
    static uint8_t made[SHEET_ROOM];
    draw_from(from);
    if (one_in(4)) return LLVMFuzzerMutate(data, size, most);
    size_t len = one_in(2) ? make_sheet(made, SMALL) : 0;
    if (len == 0 || len > most) return damage(data, size, most);
    memcpy(data, made, len);
    return len;
}

static void report_at_end(void) { report(); }

int LLVMFuzzerInitialize(int *argc, char ***argv) {
    (void)argc, (void)argv;
    make_memory();
    return atexit(report_at_end);
}

int LLVMFuzzerTestOneInput(const uint8_t *data, size_t size) {
    static Lent c;
    uint64_t sum = size;
    for (size_t i = 0; i < size; i++) sum = (sum ^ data[i]) * 0x100000001B3;
    draw_from(sum);
    Counts counts = {0};
    if (size >= sizeof counts) counts = counts_of(data);
    lend_sheet(&c, data, size);
    draw_sizes(&c, counts.points % 17, counts.nodes % 1025);
    HemokatuAnswered r = call_once(&c);
    answered[(r.number * 1021 + r.a * 31 + r.b * 7 + r.count) % sizeof answered] = 1;
    call++;
    return 0;
}

#else

// ---- the run

static uint8_t made[SHEET_ROOM], damaged[SHEET_ROOM];

static void on_signal(int number) {
    char text[160];
    const char *what = number == SIGVTALRM ? "no end" : "a fault";
    int n = snprintf(text, sizeof text, "seed %llu, call %llu: %s, signal %d\n", (unsigned long long)seed, (unsigned long long)call, what, number);
    if (write(2, text, (size_t)n) != n) _exit(4);
    _exit(3);
}

static Size draw_size(void) { return one_in(50000) ? FULL : one_in(100) ? LARGE : SMALL; }

// Calls with one sheet: as it was made, with several sizes of areas, then damaged. Everything is drawn from the seed and the group's number.
static void call_group(uint64_t group) {
    static Lent c;
    static const struct itimerval limit = {{0, 0}, {SECONDS, 0}}; // of the program's own time: a busy machine is no fault
    draw_from((seed << 40) + group);
    draw_from(draw());
    setitimer(ITIMER_VIRTUAL, &limit, NULL);
    size_t len = make_sheet(made, draw_size());
    Counts counts = counts_of(made);
    if (hemokatu_judge(made, len).number) stop("a sheet made by the header's layout is refused");
    size_t points = draw() >> below(64), nodes = draw() >> below(64);
    if (!sizes_right(points, nodes)) stop("the sizes");
    for (int i = 0; i < GROUP; i++, call++) {
        size_t now = len;
        if (i >= GROUP / 2) {
            memcpy(damaged, made, len);
            now = damage(damaged, len, SHEET_ROOM);
        }
        lend_sheet(&c, i >= GROUP / 2 ? damaged : made, now);
        draw_sizes(&c, counts.points, counts.nodes);
        call_once(&c);
    }
}

int main(int argc, char **argv) {
    if (argc < 3) {
        fputs("usage: fuzz COUNT SEED [FIRST]\n", stderr);
        return 2;
    }
    uint64_t count = strtoull(argv[1], NULL, 10), first = argc > 3 ? strtoull(argv[3], NULL, 10) / GROUP * GROUP : 0;
    seed = strtoull(argv[2], NULL, 10);
    static const int signals[] = {SIGSEGV, SIGBUS, SIGILL, SIGFPE, SIGVTALRM};
    for (size_t i = 0; i < sizeof signals / sizeof *signals; i++) signal(signals[i], on_signal);
    make_memory();
    if (!layout_right(made)) stop("the header's layout is not the judge's");
    for (call = first; call < first + count;) {
        call_group(call / GROUP);
        if (call % 1000000 < GROUP) fprintf(stderr, "seed %llu: %llu calls\n", (unsigned long long)seed, (unsigned long long)call);
    }
    return report() && count >= 100000;
}

#endif
