// Times hemokatu_judge against a plain sum over the same bytes, alternating, best of many rounds. See docs/PERFORMANCE.md.
#include "../examples/sheet.h"
#include <stdio.h>
#include <stdlib.h>
#include <time.h>

// A well-formed line: the roads spread over the nodes in a ring, the rows over the points.
static size_t make(uint8_t *b, const Counts *c) {
    const Places at = places_of(c);
    const Settings settings = default_settings();
    const uint32_t rows = c->rows / c->points;
    uint32_t start = 0;
    memset(b, 0, at.total);
    put_header(b, c);
    put_settings(b + at.settings, &settings);
    for (uint32_t i = 0; i < c->points; i++) {
        int is_last = i + 1 == c->points;
        put_point(b + at.points + HEMOKATU_POINT_SIZE * i,
                  &(Point){.dnp = is_last ? 0 : 50, .bearing = 90, .frc = 3, .fow = 3, .limit = is_last ? HEMOKATU_NO_PATH_ENTRY : 3, .rows = rows});
    }
    for (uint32_t r = 0; r < c->roads; r++) {
        uint32_t source = r * c->nodes / c->roads;
        put_road(b + at.roads + HEMOKATU_ROAD_SIZE * r, &(Road){.length = 100, .source = source, .target = (source + 1) % c->nodes, .frc = 3, .fow = 3});
        put_listed(b + at.numbers, r, r);
        for (; start <= source; start++) put_listed(b + at.lists, start, r);
    }
    for (; start <= c->nodes; start++) put_listed(b + at.lists, start, c->roads);
    for (uint32_t k = 0; k < c->rows; k++)
        put_row(b + at.rows + HEMOKATU_ROW_SIZE * k, &(Row){.road = k % rows, .distance = 1, .bearing = 90, .along = 25, .line_length = 100});
    for (uint32_t i = 0; i < 2 * c->nodes; i++) put_distance(b + at.distances, i, 5);
    for (uint32_t g = 0; g < c->goals; g++) {
        uint8_t *goal = b + at.goals + g * at.goal_size;
        put32(goal + HEMOKATU_GOAL_NODE, g);
        for (uint32_t v = 0; v < c->nodes; v++) put_distance(goal + HEMOKATU_GOAL_DISTANCES, v, 1e7 * v / c->nodes);
    }
    return at.total;
}

static uint64_t sum(const uint8_t *b, size_t len) {
    uint64_t t = 0, v;
    for (size_t i = 0; i + 8 <= len; i += 8) memcpy(&v, b + i, 8), t += v;
    return t;
}

static double now(void) {
    struct timespec t;
    clock_gettime(CLOCK_MONOTONIC, &t);
    return t.tv_sec * 1e9 + t.tv_nsec;
}

int main(void) {
    static const Counts sizes[] = {{1, 2, 2, 1, 2, 1}, {1, 16, 64, 128, 64, 8}, {1, 16, 1024, 4096, 1024, 32}, {1, 16, 1024, 4096, 1024, 1024}};
    uint8_t *b = malloc(16 << 20);
    volatile uint64_t keep = 0;
    for (int i = 0; i < 4; i++) {
        const Counts *z = &sizes[i];
        size_t len = make(b, z);
        int turns = len > 1000000 ? 1 : len > 100000 ? 10 : 2000;
        double judging = 1e30, summing = 1e30;
        for (int round = 0; round < 400; round++) {
            keep += hemokatu_judge(b, len).number; // not timed: what ran last has no part
            double t = now();
            for (int k = 0; k < turns; k++) keep += hemokatu_judge(b, len).number;
            t = (now() - t) / turns;
            if (t < judging) judging = t;
            keep += sum(b, len);
            t = now();
            for (int k = 0; k < turns; k++) {
                keep += sum(b, len);
                __asm__ volatile("" ::"r"(b) : "memory");
            }
            t = (now() - t) / turns;
            if (t < summing) summing = t;
        }
        printf("P %u N %u E %u M %u G %u: %zu bytes, refusal %zu, judge %.2f us (%.1f GB/s), sum %.2f us (%.1f GB/s)\n", z->points, z->nodes, z->roads,
               z->rows, z->goals, len, hemokatu_judge(b, len).number, judging / 1e3, len / judging, summing / 1e3, len / summing);
    }
    return keep == 42;
}
