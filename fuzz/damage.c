// Ways to damage a sheet. Some leave it well-formed.
#include "fuzz.h"

static uint32_t edge32(void) {
    static const uint32_t edges[] = {0, 1, 2, 7, 8, 16, 17, 63, 64, 65, 255, 256, 360, 361, 1024, 1025, 4096, 4097, 0x7FFFFFFF, 0x80000000, 0xFFFFFFFF};
    return edges[below(sizeof edges / sizeof *edges)];
}

// zeros and ones, subnormals, both sides of 360 and of 10,000,000, infinities, NaNs, each with either sign
static uint64_t edge64(void) {
    static const uint64_t edges[] = {0, 1, 0x000FFFFFFFFFFFFF, 0x0010000000000000, 0x3FF0000000000000, 0x4076800000000000, 0x4076800000000001,
                                     0x416312D000000000, 0x416312D000000001, 0x7FEFFFFFFFFFFFFF, 0x7FF0000000000000, 0x7FF0000000000001,
                                     0x7FF8000000000000, 0x7FFFFFFFFFFFFFFF};
    uint64_t sign = one_in(3) ? 0x8000000000000000 : 0;
    return edges[below(sizeof edges / sizeof *edges)] | sign;
}

// A place where `bytes` fit, a multiple of 4: most fields begin there.
static size_t place(size_t len, size_t bytes) { return len < bytes ? 0 : 4 * (size_t)below((uint32_t)((len - bytes) / 4 + 1)); }

static void flip(uint8_t *b, size_t len) {
    for (uint32_t k = 1 + below(3); len && k > 0; k--) {
        size_t at = below((uint32_t)len);
        b[at] ^= one_in(2) ? (uint8_t)(1 << below(8)) : (uint8_t)draw();
    }
}

static void put_edge(uint8_t *b, size_t len) {
    uint32_t width = below(3);
    uint64_t v = width == 0 ? edge64() : edge32();
    size_t bytes = width == 0 ? 8 : width == 1 ? 4 : 1;
    size_t at = place(len, bytes) + (width == 2 ? below(4) : 0);
    if (at + bytes <= len) memcpy(b + at, &v, bytes);
}

// one word of the header: a neighbour of what stands there, or anything
static void change_header(uint8_t *b, size_t len) {
    if (len < HEMOKATU_HEADER_SIZE) return;
    uint32_t v;
    size_t at = 4 * (size_t)below(HEMOKATU_HEADER_SIZE / 4);
    memcpy(&v, b + at, 4);
    v = one_in(2) ? v + below(3) - 1 : one_in(2) ? edge32() : (uint32_t)draw();
    memcpy(b + at, &v, 4);
}

// another count with the offsets and the length that belong to it
static size_t change_count(uint8_t *b, size_t len, size_t room) {
    if (len < HEMOKATU_HEADER_SIZE) return len;
    Counts counts;
    uint32_t words[sizeof counts / 4], i = below(sizeof counts / 4);
    memcpy(words, b, sizeof words);
    words[i] = one_in(2) ? words[i] + below(3) - 1 : one_in(4) ? edge32() : below(20);
    memcpy(&counts, words, sizeof counts);
    size_t total = places_of(&counts).total;
    if (total > room || total > len + 4096) return len;
    if (total > len) memset(b + len, 0, total - len);
    put_header(b, &counts);
    return total;
}

// a shorter or longer sheet, whose header knows it or not
static size_t resize(uint8_t *b, size_t len, size_t room) {
    size_t to = one_in(2) ? len + below(17) - 8 : one_in(2) ? below((uint32_t)len + 1) : below(128);
    if (to > room) to = one_in(2) ? 0 : room;
    if (to > len) memset(b + len, (int)draw(), to - len);
    uint32_t total = (uint32_t)to;
    if (to >= HEMOKATU_HEADER_SIZE && one_in(2)) memcpy(b + HEMOKATU_HEADER_TOTAL, &total, 4);
    return to;
}

// some bytes of the sheet over others of it
static void splice(uint8_t *b, size_t len) {
    size_t bytes = one_in(2) ? 4 * (1 + below(10)) : below((uint32_t)len + 1);
    size_t to = place(len, bytes), from = place(len, bytes);
    if (bytes <= len) memmove(b + to, b + from, bytes);
}

// two equally long pieces exchanged: two numbers of a list, two records
static void exchange(uint8_t *b, size_t len) {
    static const size_t sizes[] = {4, 8, HEMOKATU_POINT_SIZE, HEMOKATU_ROAD_SIZE, HEMOKATU_ROW_SIZE};
    uint8_t kept[HEMOKATU_ROW_SIZE];
    size_t bytes = sizes[below(5)], one = place(len, bytes), other = one + bytes * (1 + below(4));
    if (other + bytes > len) return;
    memcpy(kept, b + one, bytes);
    memcpy(b + one, b + other, bytes);
    memcpy(b + other, kept, bytes);
}

// a part of another sheet at the same place
static size_t graft(uint8_t *b, size_t len, size_t room) {
    static uint8_t other[SHEET_ROOM];
    size_t from = one_in(2) ? HEMOKATU_HEADER_SIZE : 0, to = make_sheet(other, SMALL);
    if (to > room || len < from) return len;
    if (one_in(2)) from = place(to, 4);
    if (one_in(2)) to = from + below((uint32_t)(to - from) + 1);
    if (from > len) return len;
    memcpy(b + from, other + from, to - from);
    return to > len || one_in(4) ? to : len;
}

static size_t noise(uint8_t *b, size_t room) {
    size_t len = one_in(2) ? below(64) : below(1024);
    if (len > room) len = room;
    for (size_t i = 0; i < len; i++) b[i] = (uint8_t)draw();
    return len;
}

static size_t damage_once(uint8_t *b, size_t len, size_t room) {
    switch (below(16)) {
    case 0: case 1: flip(b, len); return len;
    case 2: case 3: case 4: case 5: put_edge(b, len); return len;
    case 6: change_header(b, len); return len;
    case 7: case 8: return change_count(b, len, room);
    case 9: return resize(b, len, room);
    case 10: splice(b, len); return len;
    case 11: return graft(b, len, room);
    case 12: case 13: case 14: exchange(b, len); return len;
    default: return noise(b, room);
    }
}

size_t damage(uint8_t *b, size_t len, size_t room) {
    len = damage_once(b, len, room);
    return one_in(4) ? damage_once(b, len, room) : len;
}
