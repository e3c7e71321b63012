// Decodes a sheet file and says the answer in words: desk FILE; desk --list FILE prints it as the list program does.
// FILE may be -, for standard input. Ends with 0 for a match, 1 for a refusal, 2 where the file cannot be read.
#include "../include/hemokatu.h"
#include <inttypes.h>
#include <stdbool.h>
#include <stdio.h>
#include <stdlib.h>
#include <string.h>

enum {
    NODES = HEMOKATU_MOST_NODES,
    LIST = (HEMOKATU_MOST_POINTS + 4) * (NODES + 1),
    HEAP = 4096,           // slots at first
    MOST_HEAP = 1024 * 1024 // 32 MiB
};

// Room for every sheet there is, 680,576 bytes, and the heap beside it. A host with less asks hemokatu_sizes what its
// sheet needs.
typedef struct {
    double labels[2 * NODES];
    size_t came_from[NODES];
    size_t covered[LIST];
    double coverage[LIST];
    uint64_t ids[LIST];
    double lengths[LIST];
} Areas;

// The two parts of a heap, two numbers for each slot, in one piece of memory.
typedef struct {
    size_t slots;
    double *entries;
    size_t *links;
} Heap;

static bool heap_of(size_t slots, Heap *heap) {
    double *entries = malloc(slots * 2 * (sizeof(double) + sizeof(size_t)));
    if (!entries) return false;
    *heap = (Heap){slots, entries, (size_t *)(entries + 2 * slots)};
    return true;
}

static HemokatuAnswered decode_with(const uint8_t *sheet, size_t len, Areas *w, const Heap *h) {
    return hemokatu_decode(sheet, len, w->labels, 2 * NODES, w->came_from, NODES, h->entries, 2 * h->slots, h->links, 2 * h->slots, w->covered,
                           LIST, w->coverage, LIST, w->ids, LIST, w->lengths, LIST);
}

// With a heap of twice the slots as long as a search uses it up. False where there is no memory.
static bool decode(const uint8_t *sheet, size_t len, Areas *w, HemokatuAnswered *r) {
    for (size_t slots = HEAP; slots <= MOST_HEAP; slots *= 2) {
        Heap heap;
        if (!heap_of(slots, &heap)) return false;
        *r = decode_with(sheet, len, w, &heap);
        free(heap.entries);
        if (r->number != HEMOKATU_HEAP_USED_UP) break;
    }
    return true;
}

static uint64_t bits(double x) {
    uint64_t b;
    memcpy(&b, &x, sizeof b);
    return b;
}

// As the list program prints it: a line for each part, a double as its bits.
static void print_list(const HemokatuAnswered *r, const Areas *w) {
    if (r->number != HEMOKATU_MATCHED) {
        printf("refused %zu %zu %zu\n", r->number, r->a, r->b);
        return;
    }
    printf("path %zu\n", r->count);
    for (size_t i = 0; i < r->count; i++) printf("road %" PRIu64 " %016" PRIx64 "\n", w->ids[i], bits(w->lengths[i]));
    printf("length %016" PRIx64 "\n", bits(r->length_m));
    printf("start %016" PRIx64 " %016" PRIx64 "\n", bits(r->start_offset), bits(r->start_fraction));
    printf("end %016" PRIx64 " %016" PRIx64 "\n", bits(r->end_offset), bits(r->end_fraction));
    printf("primary %" PRIu64 " %016" PRIx64 "\n", r->primary, bits(r->coverage));
}

// " (25.0 %)", and nothing for a part of a road of length 0
static void print_share(double fraction) {
    if (fraction <= 1e9) printf(" (%.1f %%)", 100 * fraction);
}

static void print_match(const HemokatuAnswered *r, const Areas *w) {
    printf("matched: %zu road%s, %.1f m from the first point to the last\n", r->count, r->count == 1 ? "" : "s", r->length_m);
    for (size_t i = 0; i < r->count; i++) printf("  road %" PRIu64 ", %.1f m\n", w->ids[i], w->lengths[i]);
    printf("begins %.1f m", r->start_offset);
    print_share(r->start_fraction);
    printf(" behind the start of the first road\nends %.1f m", r->end_offset);
    print_share(r->end_fraction);
    printf(" before the end of the last road\n");
    printf("the largest part, %.1f m, is on road %" PRIu64 "\n", r->coverage, r->primary);
}

static const char *kind_name(size_t kind) {
    static const char *const names[] = {"geo coordinate", "point of interest", "circle", "rectangle", "grid", "polygon", "closed line"};
    return kind < HEMOKATU_KIND_GEO_COORDINATE || kind > HEMOKATU_KIND_CLOSED_LINE ? "unknown" : names[kind - HEMOKATU_KIND_GEO_COORDINATE];
}

static void print_refusal(const HemokatuAnswered *r) {
    printf("refused (%zu): ", r->number);
    switch (r->number) {
    case HEMOKATU_SHORT: puts("no sheet, it has under 56 bytes"); break;
    case HEMOKATU_COUNTS: puts("a count is above its limit, or a point along line has not two points"); break;
    case HEMOKATU_LAYOUT: puts("the header's offsets or its total do not fit its counts"); break;
    case HEMOKATU_VALUE: printf("the value at byte %zu is out of range\n", r->a); break;
    case HEMOKATU_RULES: puts("lists, rows or goal rows do not fit each other"); break;
    case HEMOKATU_ROOM: puts("the areas are too small"); break;
    case HEMOKATU_KIND: printf("a reference of kind %s is not decoded\n", kind_name(r->a)); break;
    case HEMOKATU_NO_POINTS: puts("the line has no points"); break;
    case HEMOKATU_NO_CANDIDATE: printf("no road near point %zu fits it\n", r->a); break;
    case HEMOKATU_NO_PATH: printf("no path from point %zu to point %zu\n", r->a, r->b); break;
    case HEMOKATU_HEAP_USED_UP: printf("a search from point %zu to point %zu needs more than %d heap entries\n", r->a, r->a + 1, MOST_HEAP); break;
    default: puts("unknown"); break;
    }
}

// The bytes of a file and how many; no bytes where it cannot be read.
static uint8_t *read_file(const char *name, size_t *len) {
    FILE *f = strcmp(name, "-") ? fopen(name, "rb") : stdin;
    if (!f) return NULL;
    uint8_t *bytes = malloc(1);
    size_t room = 1, got;
    *len = 0;
    while (bytes && (got = fread(bytes + *len, 1, room - *len, f)) > 0) {
        *len += got;
        if (*len < room) continue;
        uint8_t *more = realloc(bytes, room *= 2);
        if (!more) free(bytes);
        bytes = more;
    }
    if (ferror(f)) {
        free(bytes);
        bytes = NULL;
    }
    fclose(f);
    return bytes;
}

int main(int argc, char **argv) {
    bool list = argc > 1 && !strcmp(argv[1], "--list");
    if (argc != 2 + list) {
        fputs("usage: desk [--list] FILE\n", stderr);
        return 2;
    }
    if (hemokatu_version() / 100 != HEMOKATU_VERSION / 100) {
        fprintf(stderr, "desk: the library has version %" PRIu32 ", and its header %d\n", hemokatu_version(), HEMOKATU_VERSION);
        return 2;
    }
    const char *name = argv[1 + list];
    size_t len;
    uint8_t *sheet = read_file(name, &len);
    if (!sheet) {
        perror(name);
        return 2;
    }
    Areas areas;
    HemokatuAnswered r;
    bool done = decode(sheet, len, &areas, &r);
    free(sheet);
    if (!done) {
        fputs("desk: no memory for the heap\n", stderr);
        return 2;
    }
    if (list)
        print_list(&r, &areas);
    else if (r.number == HEMOKATU_MATCHED)
        print_match(&r, &areas);
    else
        print_refusal(&r);
    return r.number != HEMOKATU_MATCHED;
}
