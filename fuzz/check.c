// What a call must leave, as far as it can be told without decoding.
#include "fuzz.h"
#include <math.h>
#include <stdlib.h>
#include <string.h>

enum { PATTERN = 0xA5 };

static uint8_t *pattern, *zeros; // as long as an answer list can be
static HemokatuSizes need;       // of the sheet in hand, for refusal 6

void make_patterns(void) {
    size_t bytes = 8 * most_entries(IDS);
    pattern = malloc(bytes), zeros = calloc(bytes, 1);
    if (!pattern || !zeros) exit(2);
    memset(pattern, PATTERN, bytes);
}

void fill_lists(const Lent *c) {
    for (int i = IDS; i <= LENGTHS; i++)
        if (c->entries[i]) memset(c->at[i], PATTERN, 8 * c->entries[i]);
}

static int zero_bytes(const void *p, size_t bytes) { return memcmp(p, zeros, bytes) == 0; }

// whether a list is untouched
static int untouched(const Lent *c, int list) { return c->entries[list] == 0 || memcmp(c->at[list], pattern, 8 * c->entries[list]) == 0; }

// whether a list is zero from this entry on
static int zero_from(const Lent *c, int list, size_t from) {
    return c->entries[list] == from || zero_bytes((uint64_t *)c->at[list] + from, 8 * (c->entries[list] - from));
}

static int has_room(const Lent *c) {
    for (int i = 0; i < AREAS; i++) {
        size_t least = i == LABELS ? 2 * need.node : i == CAME_FROM ? need.node : i <= LINKS ? 2 * need.heap_least : need.list;
        if (c->entries[i] < least) return 0;
    }
    return 1;
}

static uint32_t header(const Lent *c, size_t at) {
    uint32_t v;
    memcpy(&v, c->sheet + at, 4);
    return v;
}

// an f64 of an answer: no NaN, no sign, and not infinite but for a fraction
static int amount(double v, int fraction) { return !signbit(v) && (isfinite(v) || (fraction && isinf(v))); }

// whether the sheet has a road of this id, and of this length where one is named
static int has_road(const Lent *c, const uint64_t *id, const double *length) {
    const uint8_t *road = c->sheet + header(c, HEMOKATU_HEADER_ROADS_AT);
    for (uint32_t k = header(c, HEMOKATU_HEADER_ROADS); k > 0; k--, road += HEMOKATU_ROAD_SIZE)
        if (!memcmp(road + HEMOKATU_ROAD_ID, id, 8) && (!length || !memcmp(road + HEMOKATU_ROAD_LENGTH, length, 8))) return 1;
    return 0;
}

static const char *match_fault(const Lent *c, const HemokatuAnswered *r) {
    if (r->a || r->b) return "a match has places";
    if (r->count == 0 || r->count > need.list) return "the path's count";
    if (!amount(r->length_m, 0) || !amount(r->start_offset, 0) || !amount(r->end_offset, 0) || !amount(r->coverage, 0)) return "a number of metres";
    if (!amount(r->start_fraction, 1) || !amount(r->end_fraction, 1)) return "a fraction";
    for (size_t i = 0; i < r->count; i++)
        if (!has_road(c, (uint64_t *)c->at[IDS] + i, (double *)c->at[LENGTHS] + i)) return "a road of the path is not on the sheet";
    if (!has_road(c, &r->primary, NULL)) return "the primary road is not on the sheet";
    if (!zero_from(c, IDS, r->count) || !zero_from(c, LENGTHS, r->count)) return "a list is not zero behind the path";
    return NULL;
}

// whether the places of a refusal are such as it can name
static int places_right(const Lent *c, const HemokatuAnswered *r) {
    size_t points = r->number < HEMOKATU_KIND ? 0 : header(c, HEMOKATU_HEADER_POINTS);
    switch (r->number) {
    case HEMOKATU_VALUE: return r->a < c->sheet_len && r->b == 0;
    case HEMOKATU_KIND: return r->a == header(c, HEMOKATU_HEADER_KIND) && r->b == 0;
    case HEMOKATU_NO_CANDIDATE: return r->a < points && r->b == 0;
    case HEMOKATU_NO_PATH: return r->a <= r->b && r->b < points;
    case HEMOKATU_HEAP_USED_UP: return r->a + 1 < points && r->b == 0;
    default: return r->a == 0 && r->b == 0;
    }
}

static const char *refusal_fault(const Lent *c, const HemokatuAnswered *r) {
    if (!zero_bytes(&r->count, sizeof *r - offsetof(HemokatuAnswered, count))) return "a refusal says more than number and places";
    if (!places_right(c, r)) return "the places of a refusal";
    if (r->number <= HEMOKATU_ROOM) return untouched(c, IDS) && untouched(c, LENGTHS) ? NULL : "a refusal up to 6 touched a list";
    return zero_from(c, IDS, 0) && zero_from(c, LENGTHS, 0) ? NULL : "a refusal from 7 on left a list";
}

int sizes_right(size_t points, size_t nodes) {
    HemokatuSizes s = hemokatu_sizes(points, nodes);
    size_t known = points <= HEMOKATU_MOST_POINTS && nodes <= HEMOKATU_MOST_NODES;
    return s.node == known * nodes && s.heap_least == known && s.list == known * (points + 4) * (nodes + 1);
}

// which refusal comes, as far as judge, counts and sizes tell
static const char *number_fault(const Lent *c, const HemokatuAnswered *r) {
    HemokatuJudgement j = hemokatu_judge(c->sheet, c->sheet_len);
    if (j.number > HEMOKATU_RULES) return "the judge's number";
    if (j.number) return r->number == j.number && r->a == j.place ? NULL : "the judge says otherwise";
    if (j.place) return "the judge's place";
    uint32_t points = header(c, HEMOKATU_HEADER_POINTS), nodes = header(c, HEMOKATU_HEADER_NODES), kind = header(c, HEMOKATU_HEADER_KIND);
    if (!sizes_right(points, nodes)) return "the sizes";
    need = hemokatu_sizes(points, nodes);
    size_t known = !has_room(c) ? HEMOKATU_ROOM : kind > HEMOKATU_KIND_POINT_ALONG_LINE ? HEMOKATU_KIND : points == 0 ? HEMOKATU_NO_POINTS : 0;
    if (known ? r->number != known : r->number != 0 && r->number < HEMOKATU_NO_CANDIDATE) return "another number than the sheet's";
    return NULL;
}

const char *call_fault(const Lent *c, const HemokatuAnswered *r) {
    if (r->number > HEMOKATU_HEAP_USED_UP) return "no such number";
    const char *f = number_fault(c, r);
    if (!f) f = r->number == HEMOKATU_MATCHED ? match_fault(c, r) : refusal_fault(c, r);
    return f ? f : slack_fault(c);
}
