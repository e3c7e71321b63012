// The library with one fault, which the fuzz run must notice: linked by --wrap before the library; FAULT in the environment says which.
#include "../include/hemokatu.h"
#include <stdlib.h>
#include <string.h>

#define SLICES                                                                                                                           \
    const uint8_t *sheet, size_t sheet_len, double *labels, size_t labels_len, size_t *came_from, size_t came_from_len, double *entries, \
        size_t entries_len, size_t *links, size_t links_len, size_t *covered, size_t covered_len, double *coverage, size_t coverage_len, \
        uint64_t *ids, size_t ids_len, double *lengths, size_t lengths_len

HemokatuAnswered __real_hemokatu_decode(SLICES);
HemokatuAnswered __wrap_hemokatu_decode(SLICES);
HemokatuJudgement __real_hemokatu_judge(const uint8_t *sheet, size_t sheet_len);
HemokatuJudgement __wrap_hemokatu_judge(const uint8_t *sheet, size_t sheet_len);
HemokatuSizes __real_hemokatu_sizes(size_t points, size_t nodes);
HemokatuSizes __wrap_hemokatu_sizes(size_t points, size_t nodes);

static int is(const char *name) {
    const char *fault = getenv("FAULT");
    return fault && strcmp(fault, name) == 0;
}

static volatile uint8_t seen;

// faults of the answer; old: what stood in a work area before the call
static void tell(HemokatuAnswered *r, double old) {
    int matched = r->number == HEMOKATU_MATCHED;
    if (is("answer-nan") && matched) r->length_m = 0.0 / 0.0;
    if (is("answer-minus-zero") && matched && r->end_offset == 0) r->end_offset = -0.0;
    if (is("answer-infinite") && matched) r->coverage = 1.0 / 0.0;
    if (is("old-content") && matched && old > 1e300) r->end_offset++;
    if (is("primary-invented") && matched) r->primary ^= 1ULL << 40;
    if (is("count-none") && matched) r->count = 0;
    if (is("number-unknown") && r->number == HEMOKATU_HEAP_USED_UP) r->number = 12;
    if (is("number-exchanged") && r->number == HEMOKATU_KIND) r->number = HEMOKATU_NO_POINTS;
    if (is("place-wild") && r->number == HEMOKATU_NO_CANDIDATE) r->a = 16;
    if (is("refusal-says-more") && r->number == HEMOKATU_NO_PATH) r->length_m = 1;
    while (is("no-end") && r->number == HEMOKATU_NO_PATH) seen++;
}

// faults of memory and of the lists
HemokatuAnswered __wrap_hemokatu_decode(SLICES) {
    double old = labels_len ? labels[0] : 0;
    HemokatuAnswered r = __real_hemokatu_decode(sheet, sheet_len, labels, labels_len, came_from, came_from_len, entries, entries_len, links,
                                                links_len, covered, covered_len, coverage, coverage_len, ids, ids_len, lengths,
                                                lengths_len);
    int matched = r.number == HEMOKATU_MATCHED;
    if (is("labels-one-before") && matched) labels[-1] = 0;
    if (is("came-from-one-behind") && matched) came_from[came_from_len] = 0;
    if (is("covered-one-behind") && matched) covered[covered_len] = 1;
    if (is("links-read-behind") && matched) seen = (uint8_t)links[links_len];
    if (is("coverage-read-before") && matched) seen = (uint8_t)((uint64_t *)coverage)[-1];
    if (is("ids-one-before") && matched) ids[-1] = 0;
    if (is("lengths-one-behind") && matched) lengths[lengths_len] = 0;
    if (is("sheet-read-behind")) seen = sheet[sheet_len];
    if (is("sheet-read-before")) seen = sheet[-1];
    if (is("sheet-written") && sheet_len) ((uint8_t *)(uintptr_t)sheet)[0] = 0;
    if (is("list-left") && r.number == HEMOKATU_NO_PATH) ids[ids_len - 1] = 1;
    if (is("tail-left") && matched && r.count < lengths_len) lengths[r.count] = 1;
    if (is("list-touched") && r.number == HEMOKATU_RULES && ids_len) ids[ids_len / 2] = 0;
    if (is("length-nan") && matched) lengths[0] = 0.0 / 0.0;
    if (is("road-invented") && matched) ids[r.count - 1] ^= 1ULL << 40;
    tell(&r, old);
    return r;
}

HemokatuJudgement __wrap_hemokatu_judge(const uint8_t *sheet, size_t sheet_len) {
    HemokatuJudgement j = __real_hemokatu_judge(sheet, sheet_len);
    if (is("judge-place") && j.number == HEMOKATU_VALUE) j.place++;
    if (is("judge-lenient") && j.number == HEMOKATU_RULES) j.number = 0;
    return j;
}

HemokatuSizes __wrap_hemokatu_sizes(size_t points, size_t nodes) {
    HemokatuSizes s = __real_hemokatu_sizes(points, nodes);
    if (is("sizes-short") && s.list) s.list--;
    return s;
}
