// Rooms between two pages that fault: whoever reads or writes one entry too far ends the program.
// The sheet's room is mapped twice; what is lent is the mapping that can only be read.
#define _GNU_SOURCE
#include "fuzz.h"
#include <stdio.h>
#include <stdlib.h>
#include <string.h>
#include <sys/mman.h>
#include <unistd.h>

enum { PAGE = 4096, SLACK = 8 };
static const uint64_t MARK = 0x5AA5C33C0FF06996;

typedef struct {
    uint8_t *start, *end;
} Room;

static Room room[AREAS], sheet_room;
static uint8_t *sheet_writable;

static void fail(const char *what) {
    perror(what);
    exit(2);
}

static Room fenced(size_t bytes, int protection, int flags, int file) {
    bytes = (bytes + PAGE - 1) / PAGE * PAGE;
    uint8_t *p = mmap(NULL, bytes + 2 * PAGE, PROT_NONE, MAP_PRIVATE | MAP_ANONYMOUS, -1, 0);
    if (p == MAP_FAILED) fail("mmap");
    Room r = {p + PAGE, p + PAGE + bytes};
    if (mmap(r.start, bytes, protection, MAP_FIXED | flags, file, 0) == MAP_FAILED) fail("mmap");
    return r;
}

static size_t wanted_entries(int area) {
    if (area <= CAME_FROM) return 2 * HEMOKATU_MOST_NODES + 64;
    if (area <= LINKS) return 1 << 15;
    return (HEMOKATU_MOST_POINTS + 4) * (HEMOKATU_MOST_NODES + 1) + 64;
}

void make_rooms(void) {
    int file = memfd_create("sheet", 0);
    if (file < 0 || ftruncate(file, SHEET_ROOM)) fail("memfd_create");
    sheet_room = fenced(SHEET_ROOM, PROT_READ, MAP_SHARED, file);
    sheet_writable = mmap(NULL, SHEET_ROOM, PROT_READ | PROT_WRITE, MAP_SHARED, file, 0);
    if (sheet_writable == MAP_FAILED) fail("mmap");
    for (int i = 0; i < AREAS; i++) room[i] = fenced(8 * wanted_entries(i), PROT_READ | PROT_WRITE, MAP_PRIVATE | MAP_ANONYMOUS, -1);
}

size_t most_entries(int area) { return (size_t)(room[area].end - room[area].start) / 8; }

void lend_sheet(Lent *c, const uint8_t *b, size_t len) {
    size_t at = one_in(4) ? 0 : SHEET_ROOM - len;
    memcpy(sheet_writable + at, b, len);
    c->sheet = len == 0 && one_in(2) ? NULL : sheet_room.start + at;
    c->sheet_len = len;
}

// The words beside a slice that are not lent: up to SLACK before it or behind it.
static uint64_t *slack(const Lent *c, int i, size_t *words) {
    uint64_t *start = (uint64_t *)room[i].start, *lent = c->at[i];
    size_t rest = most_entries(i) - c->entries[i];
    *words = lent == NULL ? 0 : rest < SLACK ? rest : SLACK;
    return *words == 0 ? start : lent == start ? start + c->entries[i] : lent - *words;
}

void lend_areas(Lent *c) {
    uint64_t places = draw();
    for (int i = 0; i < AREAS; i++, places >>= 2) {
        c->at[i] = places % 4 ? room[i].end - 8 * c->entries[i] : room[i].start;
        if (c->entries[i] == 0 && places % 2) c->at[i] = NULL;
        size_t words;
        uint64_t *w = slack(c, i, &words);
        for (size_t k = 0; k < words; k++) w[k] = MARK;
    }
}

const char *slack_fault(const Lent *c) {
    for (int i = 0; i < AREAS; i++) {
        size_t words;
        const uint64_t *w = slack(c, i, &words);
        for (size_t k = 0; k < words; k++)
            if (w[k] != MARK) return "an entry beside an area was written";
    }
    return NULL;
}
