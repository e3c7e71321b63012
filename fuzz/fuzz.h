// What the parts of the fuzz run share.
#ifndef FUZZ_H
#define FUZZ_H

#include "../examples/sheet.h"

// ---- random.c: numbers from a seed

void draw_from(uint64_t seed);
uint64_t draw(void);
uint32_t below(uint32_t n); // 0 to n - 1; 0 for n = 0
int one_in(uint32_t n);

// ---- layout.c

enum { SHEET_ROOM = 9 << 20 };

// The counts of a sheet that has a header.
static inline Counts counts_of(const uint8_t *b) {
    Counts c;
    memcpy(&c, b, sizeof c);
    return c;
}

int layout_right(uint8_t *b); // whether the constants of hemokatu.h are the judge's; b: SHEET_ROOM bytes to try it in

// ---- sheets.c

// Small for most calls, up to the greatest counts for a few.
typedef enum { SMALL, LARGE, FULL } Size;

// Writes a well-formed sheet into SHEET_ROOM bytes and gives its length.
size_t make_sheet(uint8_t *b, Size size);

// ---- damage.c

// Damages a sheet in one of many ways and gives its length, at most room.
size_t damage(uint8_t *b, size_t len, size_t room);

// ---- areas.c: memory between pages that fault

enum { LABELS, CAME_FROM, ENTRIES, LINKS, COVERED, COVERAGE, IDS, LENGTHS, AREAS };

// What is lent in one call. Each slice touches a page that faults, behind it or before it.
typedef struct {
    const uint8_t *sheet; // a mapping that can only be read
    size_t sheet_len;
    void *at[AREAS];
    size_t entries[AREAS]; // the numbers of each slice
} Lent;

void make_rooms(void);
size_t most_entries(int area);
void lend_sheet(Lent *c, const uint8_t *b, size_t len);
void lend_areas(Lent *c);                // of c->entries each
const char *slack_fault(const Lent *c);  // what is wrong beside the slices, or NULL

// ---- check.c

void make_patterns(void);
void fill_lists(const Lent *c);                                      // with what a refusal up to 6 must leave there
const char *call_fault(const Lent *c, const HemokatuAnswered *r);    // what is wrong with an answer, or NULL
int sizes_right(size_t points, size_t nodes);                        // whether hemokatu_sizes is

#endif
