// Whether the constants of hemokatu.h are the judge's.
#include "fuzz.h"

// A field and the most that may stand in it; an f64 by its bits.
typedef struct {
    size_t at, bytes;
    uint64_t most;
} Field;

static uint64_t bits(double v) {
    uint64_t b;
    memcpy(&b, &v, sizeof b);
    return b;
}

// Whether the judge names the field's place when it holds one more than its most, and not before.
static int field_right(uint8_t *b, size_t len, Field f) {
    uint8_t kept[8];
    uint64_t above = f.most + 1;
    memcpy(kept, b + f.at, f.bytes);
    memcpy(b + f.at, &f.most, f.bytes);
    size_t before = hemokatu_judge(b, len).number;
    memcpy(b + f.at, &above, f.bytes);
    HemokatuJudgement j = hemokatu_judge(b, len);
    memcpy(b + f.at, kept, f.bytes);
    return before != HEMOKATU_VALUE && j.number == HEMOKATU_VALUE && j.place == f.at;
}

static int fields_right(uint8_t *b, size_t len, const Field *f, size_t count) {
    for (; count > 0; count--, f++)
        if (!field_right(b, len, *f)) return 0;
    return 1;
}

static int settings_right(uint8_t *b, size_t len) {
    const size_t at = HEMOKATU_HEADER_SIZE;
    const Field f[] = {{at + HEMOKATU_SETTINGS_SNAP, 1, 1}, {at + HEMOKATU_SETTINGS_MOST_CANDIDATES, 2, HEMOKATU_MOST_CANDIDATES}};
    for (size_t k = HEMOKATU_SETTINGS_SEARCH_RADIUS; k <= HEMOKATU_SETTINGS_SNAP_EXTENSION; k += 8)
        if (!field_right(b, len, (Field){at + k, 8, bits(HEMOKATU_MOST_F64)})) return 0;
    return fields_right(b, len, f, sizeof f / sizeof *f);
}

// the first of each kind of record
static int records_right(uint8_t *b, size_t len, const Counts *c) {
    Places at = places_of(c);
    uint64_t metres = bits(HEMOKATU_MOST_F64), bearing = bits(HEMOKATU_MOST_BEARING), class = HEMOKATU_MOST_CLASS;
    const Field f[] = {
        {at.points + HEMOKATU_POINT_DNP, 8, metres},
        {at.points + HEMOKATU_POINT_BEARING, 2, HEMOKATU_MOST_BEARING},
        {at.points + HEMOKATU_POINT_FRC, 1, class},
        {at.points + HEMOKATU_POINT_FOW, 1, class},
        {at.points + HEMOKATU_POINT_LIMIT, 1, class},
        {at.points + HEMOKATU_POINT_ROWS, 4, HEMOKATU_MOST_POINT_ROWS},
        {at.roads + HEMOKATU_ROAD_LENGTH, 8, metres},
        {at.roads + HEMOKATU_ROAD_SOURCE, 4, c->nodes - 1},
        {at.roads + HEMOKATU_ROAD_TARGET, 4, c->nodes - 1},
        {at.roads + HEMOKATU_ROAD_FRC, 1, class},
        {at.roads + HEMOKATU_ROAD_FOW, 1, class},
        {at.roads + HEMOKATU_ROAD_ACCESS, 1, 1},
        {at.numbers, HEMOKATU_LIST_ENTRY_SIZE, c->roads - 1},
        {at.rows + HEMOKATU_ROW_ROAD, 4, c->roads - 1},
        {at.rows + HEMOKATU_ROW_DISTANCE, 8, metres},
        {at.rows + HEMOKATU_ROW_BEARING, 8, bearing},
        {at.rows + HEMOKATU_ROW_ALONG, 8, metres},
        {at.rows + HEMOKATU_ROW_LINE_LENGTH, 8, metres},
        {at.distances, HEMOKATU_DISTANCE_SIZE, metres},
        {at.goals + HEMOKATU_GOAL_NODE, 4, c->nodes - 1},
        {at.goals + HEMOKATU_GOAL_DISTANCES, HEMOKATU_DISTANCE_SIZE, metres},
    };
    return fields_right(b, len, f, sizeof f / sizeof *f);
}

// a header alone: one count at its limit is refused for its offsets, one above it for the count
static int limits_right(void) {
    static const uint32_t counts[][2] = {
        {HEMOKATU_HEADER_POINTS, HEMOKATU_MOST_POINTS},
        {HEMOKATU_HEADER_NODES, HEMOKATU_MOST_NODES},
        {HEMOKATU_HEADER_ROADS, HEMOKATU_MOST_ROADS},
        {HEMOKATU_HEADER_ROWS, HEMOKATU_MOST_ROWS},
        {HEMOKATU_HEADER_GOALS, HEMOKATU_MOST_GOALS},
    };
    uint8_t b[HEMOKATU_HEADER_SIZE] = {HEMOKATU_KIND_LINE};
    for (size_t i = 0; i < sizeof counts / sizeof *counts; i++) {
        uint32_t at = counts[i][0], most = counts[i][1];
        put32(b + at, most);
        if (hemokatu_judge(b, sizeof b).number != HEMOKATU_LAYOUT) return 0;
        put32(b + at, most + 1);
        if (hemokatu_judge(b, sizeof b).number != HEMOKATU_COUNTS) return 0;
        put32(b + at, 0);
    }
    return 1;
}

// the kinds and the last word of the header
static int header_right(uint8_t *b, size_t len) {
    const Field kind = {HEMOKATU_HEADER_KIND, 4, HEMOKATU_KIND_CLOSED_LINE};
    put32(b + HEMOKATU_HEADER_ZERO, 1);
    int zero = hemokatu_judge(b, len).number == HEMOKATU_LAYOUT;
    put32(b + HEMOKATU_HEADER_ZERO, 0);
    return zero && field_right(b, len, kind);
}

int layout_right(uint8_t *b) {
    Counts c;
    size_t len;
    do {
        len = make_sheet(b, SMALL);
        c = counts_of(b);
    } while (c.points < 2 || c.roads < 1 || c.rows < 1 || c.goals < 1);
    b[places_of(&c).points + HEMOKATU_POINT_LIMIT] = HEMOKATU_MOST_CLASS;
    return limits_right() && header_right(b, len) && settings_right(b, len) && records_right(b, len, &c);
}
