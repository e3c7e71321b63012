// Decodes full-size sheets through the library: the stack of the call, the least stack of a thread that makes it, and the time. See docs/PERFORMANCE.md.
#define _GNU_SOURCE
#include "../examples/sheet.h"
#include <pthread.h>
#include <stdio.h>
#include <stdlib.h>
#include <sys/mman.h>
#include <sys/wait.h>
#include <time.h>
#include <ucontext.h>
#include <unistd.h>

enum { P = 16, N = 1024, E = 4096, M = 1024, G = 1024, SIDE = 32, STEP = 15 };

static int around(int d) {
    d = (d % SIDE + SIDE) % SIDE;
    return d > SIDE / 2 ? SIDE - d : d;
}

// the fewest roads from node v to node w on the torus
static int steps(int v, int w) { return around(v % SIDE - w % SIDE) + around(v / SIDE - w / SIDE); }
static int up(const void *a, const void *b) { return *(const int *)a - *(const int *)b; }

// The node that road r leads to: east, south, west or north of where it begins.
static uint32_t target(int r) {
    int x = r / 4 % SIDE, y = r / 4 / SIDE, d = r % 4;
    x = (x + (d == 0) - (d == 2) + SIDE) % SIDE;
    y = (y + (d == 1) - (d == 3) + SIDE) % SIDE;
    return (uint32_t)(x + SIDE * y);
}

static void make_roads(uint8_t *roads, uint8_t *lists, uint8_t *numbers) {
    for (int r = 0; r < E; r++) {
        double length = 90 + (r * 2654435761u >> 16) % 21;
        put_road(roads + HEMOKATU_ROAD_SIZE * r, &(Road){.id = 1000000 + r, .length = length, .source = r / 4, .target = target(r), .frc = 3, .fow = 3});
        put_listed(numbers, r, r);
    }
    for (int v = 0; v <= N; v++) put_listed(lists, v, 4 * v);
}

// Point i, with a row for each road of the 4 x 4 nodes to its east and south.
static void make_point(uint8_t *points, uint8_t *rows, int i) {
    static const double bearing[4] = {90, 180, 270, 0};
    int is_last = i + 1 == P, x = STEP * i % SIDE, y = x, near[64], k = 0;
    put_point(points + HEMOKATU_POINT_SIZE * i, &(Point){.dnp = is_last ? 0 : 2 * STEP * 100, .bearing = 90, .frc = 3, .fow = 3,
                                                         .limit = is_last ? HEMOKATU_NO_PATH_ENTRY : 3, .rows = 64});
    for (int dy = 0; dy < 4; dy++)
        for (int dx = 0; dx < 4; dx++)
            for (int d = 0; d < 4; d++) near[k++] = 4 * ((x + dx) % SIDE + SIDE * ((y + dy) % SIDE)) + d;
    qsort(near, 64, sizeof *near, up);
    for (k = 0; k < 64; k++) {
        double distance = 3.0 * steps(near[k] / 4, x + SIDE * y) + 0.25 * (near[k] % 4);
        put_row(rows + HEMOKATU_ROW_SIZE * (64 * i + k),
                &(Row){.road = near[k], .distance = distance, .bearing = bearing[near[k] % 4], .along = 25, .line_length = 100});
    }
}

static void make_distances(uint8_t *b, int to, double each) {
    for (int v = 0; v < N; v++) put_distance(b, v, each * steps(v, to));
}

// The largest sheet that is well-formed: a torus of 32 x 32 nodes, 16 points 30 roads apart. `hard`: all weights 0, so that nearly every pair of a leg is searched, and goal distances 0, so that a search visits all nodes.
static size_t make(uint8_t *b, int hard) {
    const Counts counts = {.kind = HEMOKATU_KIND_LINE, .points = P, .nodes = N, .roads = E, .rows = M, .goals = G};
    const Places at = places_of(&counts);
    Settings s = default_settings();
    s.most_candidates = HEMOKATU_MOST_CANDIDATES;
    if (hard) s.most_bearing_difference = 180, s.distance_weight = 0, s.bearing_weight = 0, s.frc_weight = 0, s.fow_weight = 0;
    memset(b, 0, at.total);
    put_header(b, &counts);
    put_settings(b + at.settings, &s);
    for (int i = 0; i < P; i++) make_point(b + at.points, b + at.rows, i);
    make_roads(b + at.roads, b + at.lists, b + at.numbers);
    make_distances(b + at.distances, 0, 90);
    make_distances(b + at.distances + HEMOKATU_DISTANCE_SIZE * N, STEP * (P - 1) % SIDE * (SIDE + 1), 90);
    for (int g = 0; g < G; g++) {
        uint8_t *goal = b + at.goals + g * at.goal_size;
        put32(goal + HEMOKATU_GOAL_NODE, g);
        make_distances(goal + HEMOKATU_GOAL_DISTANCES, g, hard ? 0 : 90);
    }
    return at.total;
}

enum { SLOTS = 1 << 15, LIST = (P + 4) * (N + 1) };

static double labels[2 * N], entries[2 * SLOTS], coverage[LIST], lengths[LIST];
static size_t came_from[N], links[2 * SLOTS], covered[LIST];
static uint64_t ids[LIST];

static HemokatuAnswered decode(const uint8_t *b, size_t len) {
    return hemokatu_decode(b, len, labels, 2 * N, came_from, N, entries, 2 * SLOTS, links, 2 * SLOTS, covered, LIST, coverage, LIST, ids, LIST,
                           lengths, LIST);
}

typedef struct {
    const uint8_t *b;
    size_t len;
    size_t roads;
} job;

static void *work(void *p) {
    job *j = p;
    HemokatuAnswered r = decode(j->b, j->len);
    j->roads = r.number == HEMOKATU_MATCHED ? r.count : 0;
    return 0;
}

// The roads of the path found in a child, in a thread of this stack; 0 where it ended by a signal.
static size_t in_thread(const uint8_t *b, size_t len, size_t stack, size_t *out) {
    *out = 0;
    pid_t child = fork();
    if (!child) {
        job j = {b, len, 0};
        pthread_attr_t t;
        pthread_t id;
        pthread_attr_init(&t);
        if (pthread_attr_setstacksize(&t, stack) || pthread_create(&id, &t, work, &j)) _exit(1);
        pthread_join(id, 0);
        *out = j.roads;
        _exit(0);
    }
    waitpid(child, 0, 0);
    return *out;
}

// The sheet for the call on a painted stack.
static const uint8_t *sheet;
static size_t sheet_len;

static void call(void) { decode(sheet, sheet_len); }
static void no_call(void) {}

// The bytes of a painted stack that a function of its own context touches.
static size_t touched(void (*function)(void)) {
    enum { PAINT = 0xA5 };
    static uint8_t stack[1 << 18];
    ucontext_t here, there;
    size_t untouched = 0;
    memset(stack, PAINT, sizeof stack);
    getcontext(&there);
    there.uc_stack.ss_sp = stack;
    there.uc_stack.ss_size = sizeof stack;
    there.uc_link = &here;
    makecontext(&there, function, 0);
    swapcontext(&here, &there);
    while (untouched < sizeof stack && stack[untouched] == PAINT) untouched++;
    return sizeof stack - untouched;
}

// The bytes of stack that the call takes. Once before, so that no symbol is resolved on that stack.
static size_t stack_of_call(const uint8_t *b, size_t len) {
    sheet = b, sheet_len = len;
    call();
    return touched(call) - touched(no_call);
}

static double now(void) {
    struct timespec t;
    clock_gettime(CLOCK_MONOTONIC, &t);
    return t.tv_sec * 1e6 + t.tv_nsec / 1e3;
}

static int less(const void *a, const void *b) {
    double x = *(const double *)a, y = *(const double *)b;
    return (x > y) - (x < y);
}

static void run(const char *name, int hard, int rounds) {
    uint8_t *b = mmap(0, 16 << 20, PROT_READ | PROT_WRITE, MAP_SHARED | MAP_ANONYMOUS, -1, 0);
    size_t *out = mmap(0, 4096, PROT_READ | PROT_WRITE, MAP_SHARED | MAP_ANONYMOUS, -1, 0);
    size_t len = make(b, hard), stack = 128;
    // the children come before any decode in this process
    while (stack > 16 && in_thread(b, len, (stack - 4) << 10, out)) stack -= 4;
    size_t roads = decode(b, len).count;
    double *t = malloc(rounds * sizeof *t);
    for (int i = 0; i < rounds; i++) {
        double start = now();
        decode(b, len);
        t[i] = now() - start;
    }
    qsort(t, rounds, sizeof *t, less);
    printf("%s: %zu bytes, %zu roads, stack of the call %zu bytes, least stack of a thread %zu KiB, best %.1f us, median %.1f us of %d\n", name, len,
           roads, stack_of_call(b, len), stack, t[0], t[rounds / 2], rounds);
    free(t);
}

int main(void) {
    run("default", 0, 1001);
    run("hard", 1, 101);
}
