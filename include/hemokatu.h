/* The calls of libhemokatu.a, which `rt lib` in crates/hemokatu writes to out/ there. x86-64 Linux.
 *
 * A slice is passed as a pointer and its number of entries. The pointer is aligned for its entries and valid for all of
 * them, and no area overlaps another or the sheet; nothing checks that. Everything else is any value at all: what each
 * call gives is proved for every sheet and every size of the areas.
 * No call allocates, keeps anything or touches what it was not lent, so threads may call at the same time, each with areas of its own.
 */
#ifndef HEMOKATU_H
#define HEMOKATU_H

#include <stddef.h>
#include <stdint.h>

#ifdef __cplusplus
extern "C" {
#endif

/* The version of this header: 10000 major + 100 minor + patch. hemokatu_version gives the library's. Before 1.0 another
 * minor version may lend other areas, so a host compares both without the patch before its first call. */
#define HEMOKATU_VERSION 200

/* The sheet, little-endian. Behind the header its sections follow without gaps in the order of their offsets; a record's
 * bytes that are named by none of its places are 0. Every f64 has its sign bit clear and is at most HEMOKATU_MOST_F64.
 * examples/sheet.h writes the parts of a sheet by these constants; docs/MEASURE.md says how each number is measured. */
enum hemokatu_sheet {
    /* Places in the header, u32 each: kind, counts, offsets of the sections, length of the sheet, 0. */
    HEMOKATU_HEADER_KIND = 0,
    HEMOKATU_HEADER_POINTS = 4,
    HEMOKATU_HEADER_NODES = 8,
    HEMOKATU_HEADER_ROADS = 12,
    HEMOKATU_HEADER_ROWS = 16,
    HEMOKATU_HEADER_GOALS = 20,
    HEMOKATU_HEADER_SETTINGS_AT = 24,
    HEMOKATU_HEADER_POINTS_AT = 28,
    HEMOKATU_HEADER_ROADS_AT = 32,
    HEMOKATU_HEADER_LISTS_AT = 36,
    HEMOKATU_HEADER_ROWS_AT = 40,
    HEMOKATU_HEADER_DISTANCES_AT = 44,
    HEMOKATU_HEADER_TOTAL = 48,
    HEMOKATU_HEADER_ZERO = 52,
    HEMOKATU_HEADER_SIZE = 56,

    /* Settings, once: 13 f64, then u8, u8, u16. */
    HEMOKATU_SETTINGS_SEARCH_RADIUS = 0,
    HEMOKATU_SETTINGS_MOST_BEARING_DIFFERENCE = 8,
    HEMOKATU_SETTINGS_MOST_CANDIDATE_DISTANCE = 16,
    HEMOKATU_SETTINGS_DISTANCE_WEIGHT = 24,
    HEMOKATU_SETTINGS_BEARING_WEIGHT = 32,
    HEMOKATU_SETTINGS_FRC_WEIGHT = 40,
    HEMOKATU_SETTINGS_FOW_WEIGHT = 48,
    HEMOKATU_SETTINGS_LENGTH_TOLERANCE = 56,
    HEMOKATU_SETTINGS_ABSOLUTE_TOLERANCE = 64,
    HEMOKATU_SETTINGS_SEARCH_FACTOR = 72,
    HEMOKATU_SETTINGS_SLIP_PENALTY = 80,
    HEMOKATU_SETTINGS_ACCESS_PENALTY = 88,
    HEMOKATU_SETTINGS_SNAP_EXTENSION = 96,
    HEMOKATU_SETTINGS_FRC_TOLERANCE = 104,   /* u8 */
    HEMOKATU_SETTINGS_SNAP = 105,            /* u8, 0 or 1 */
    HEMOKATU_SETTINGS_MOST_CANDIDATES = 106, /* u16, up to HEMOKATU_MOST_CANDIDATES */
    HEMOKATU_SETTINGS_SIZE = 112,

    /* Point. */
    HEMOKATU_POINT_DNP = 0,     /* f64; 0 without a path entry */
    HEMOKATU_POINT_BEARING = 8, /* u16, up to 360 */
    HEMOKATU_POINT_FRC = 10,    /* u8, up to 7 */
    HEMOKATU_POINT_FOW = 11,    /* u8, up to 7 */
    HEMOKATU_POINT_LIMIT = 12,  /* u8, up to 7, or HEMOKATU_NO_PATH_ENTRY */
    HEMOKATU_POINT_ROWS = 16,   /* u32: how many rows are this point's, up to HEMOKATU_MOST_POINT_ROWS */
    HEMOKATU_POINT_SIZE = 24,
    HEMOKATU_NO_PATH_ENTRY = 255,

    /* Road. */
    HEMOKATU_ROAD_ID = 0,      /* u64 */
    HEMOKATU_ROAD_LENGTH = 8,  /* f64 */
    HEMOKATU_ROAD_SOURCE = 16, /* u32, a node */
    HEMOKATU_ROAD_TARGET = 20, /* u32, a node */
    HEMOKATU_ROAD_FRC = 24,    /* u8, up to 7 */
    HEMOKATU_ROAD_FOW = 25,    /* u8, up to 7 */
    HEMOKATU_ROAD_ACCESS = 26, /* u8, 0 or 1 */
    HEMOKATU_ROAD_SIZE = 32,

    /* Lists: nodes + 1 start positions, then the number of every road in its source's part. */
    HEMOKATU_LIST_ENTRY_SIZE = 4, /* u32 */

    /* Row, point after point, roads rising within a point. */
    HEMOKATU_ROW_ROAD = 0,         /* u32, a road's number */
    HEMOKATU_ROW_DISTANCE = 8,     /* f64 */
    HEMOKATU_ROW_BEARING = 16,     /* f64, up to 360 */
    HEMOKATU_ROW_ALONG = 24,       /* f64 */
    HEMOKATU_ROW_LINE_LENGTH = 32, /* f64 */
    HEMOKATU_ROW_SIZE = 40,

    /* Distances: of every node from the first point, of every node from the last, then goal rows, their nodes rising. */
    HEMOKATU_DISTANCE_SIZE = 8,  /* f64 */
    HEMOKATU_GOAL_NODE = 0,      /* u32 */
    HEMOKATU_GOAL_DISTANCES = 8, /* f64 for every node; they end the goal row */

    /* The greatest counts and values. */
    HEMOKATU_MOST_POINTS = 16,
    HEMOKATU_MOST_NODES = 1024,
    HEMOKATU_MOST_ROADS = 4096,
    HEMOKATU_MOST_ROWS = 1024,
    HEMOKATU_MOST_GOALS = 1024,
    HEMOKATU_MOST_POINT_ROWS = 64,
    HEMOKATU_MOST_CANDIDATES = 64,
    HEMOKATU_MOST_BEARING = 360,
    HEMOKATU_MOST_CLASS = 7, /* FRC, FOW and limit */
    HEMOKATU_MOST_F64 = 10000000
};

/* The kinds. Those after the second are refusal 7. */
enum hemokatu_kind {
    HEMOKATU_KIND_LINE = 1,
    HEMOKATU_KIND_POINT_ALONG_LINE = 2, /* has two points */
    HEMOKATU_KIND_GEO_COORDINATE = 3,
    HEMOKATU_KIND_POI = 4,
    HEMOKATU_KIND_CIRCLE = 5,
    HEMOKATU_KIND_RECTANGLE = 6,
    HEMOKATU_KIND_GRID = 7,
    HEMOKATU_KIND_POLYGON = 8,
    HEMOKATU_KIND_CLOSED_LINE = 9
};

/* The default settings. */
#define HEMOKATU_DEFAULT_SEARCH_RADIUS 100.0
#define HEMOKATU_DEFAULT_MOST_BEARING_DIFFERENCE 90.0
#define HEMOKATU_DEFAULT_MOST_CANDIDATE_DISTANCE 35.0
#define HEMOKATU_DEFAULT_DISTANCE_WEIGHT 10.0
#define HEMOKATU_DEFAULT_BEARING_WEIGHT 0.2
#define HEMOKATU_DEFAULT_FRC_WEIGHT 0.1
#define HEMOKATU_DEFAULT_FOW_WEIGHT 0.1
#define HEMOKATU_DEFAULT_LENGTH_TOLERANCE 0.35
#define HEMOKATU_DEFAULT_ABSOLUTE_TOLERANCE 100.0
#define HEMOKATU_DEFAULT_SEARCH_FACTOR 2.0
#define HEMOKATU_DEFAULT_SLIP_PENALTY 20.0
#define HEMOKATU_DEFAULT_ACCESS_PENALTY 10.0
#define HEMOKATU_DEFAULT_SNAP_EXTENSION 25.0
#define HEMOKATU_DEFAULT_FRC_TOLERANCE 2
#define HEMOKATU_DEFAULT_SNAP 1
#define HEMOKATU_DEFAULT_MOST_CANDIDATES 10

/* The number of an answer: a match, or why there is none. Places that a line does not name are 0. */
enum hemokatu_number {
    HEMOKATU_MATCHED = 0,        /* a match; of hemokatu_judge: the sheet is well-formed */
    HEMOKATU_SHORT = 1,          /* under 56 bytes */
    HEMOKATU_COUNTS = 2,         /* a count above its limit, or a point along line without two points */
    HEMOKATU_LAYOUT = 3,         /* offsets, total or final zero wrong */
    HEMOKATU_VALUE = 4,          /* a value out of range, or a spare byte that is not 0; a: its offset in the sheet */
    HEMOKATU_RULES = 5,          /* starts, lists, order, row sum or goal rules broken */
    HEMOKATU_ROOM = 6,           /* an area or an answer list too small */
    HEMOKATU_KIND = 7,           /* neither a line nor a point along line; a: the kind */
    HEMOKATU_NO_POINTS = 8,      /* a line without points */
    HEMOKATU_NO_CANDIDATE = 9,   /* no road near the point fits it; a: the point */
    HEMOKATU_NO_PATH = 10,       /* no path; a: from this point, b: to this one */
    HEMOKATU_HEAP_USED_UP = 11   /* a search needs a larger heap; a: the leg */
};

/* What hemokatu_judge says: 0 and 0 of a well-formed sheet, else the number of the refusal and its place a. */
typedef struct {
    size_t number;
    size_t place;
} HemokatuJudgement;

/* The entries that each area must have. An entry has two numbers in labels, entries and links, so those are twice as long. */
typedef struct {
    size_t node;       /* labels (twice), came_from */
    size_t heap_least; /* entries (twice), links (twice): more let larger searches end */
    size_t list;       /* covered, coverage, ids, lengths */
} HemokatuSizes;

/* What hemokatu_decode says. A refusal has its number, a and b, and zeros elsewhere. No double is a NaN or -0; a fraction can be infinite. */
typedef struct {
    size_t number;         /* HEMOKATU_MATCHED, or the refusal's */
    size_t a;              /* the places of a refusal */
    size_t b;
    size_t count;          /* roads of the path */
    double length_m;       /* the sum of the legs */
    double start_offset;   /* from the start of the path to the first point, in metres */
    double start_fraction; /* the same over the first road's length */
    double end_offset;     /* from the last point to the end of the path, in metres */
    double end_fraction;   /* the same over the last road's length */
    uint64_t primary;      /* the id of the road with the greatest coverage */
    double coverage;       /* the metres covered of it */
} HemokatuAnswered;

/* The limits of a charge. */
enum hemokatu_tariff {
    HEMOKATU_CLASSES = 8,
    HEMOKATU_MOST_PRICE = 1000000,
    HEMOKATU_MOST_PATH = 300000 /* roads of a path */
};

/* Cents for each started metre on a road of each class, 0 to 7; each up to HEMOKATU_MOST_PRICE. */
typedef struct {
    uint32_t cents[HEMOKATU_CLASSES];
} HemokatuTariff;

/* What hemokatu_charge says: 0, the total in cents and the amount of each class, which add up to it; or a refusal's number, and zeros. */
typedef struct {
    size_t number; /* 0, HEMOKATU_COUNTS or HEMOKATU_VALUE; a and b of these are 0 and not told */
    uint64_t total;
    uint64_t amounts[HEMOKATU_CLASSES];
} HemokatuCharged;

/* The version of the library, as HEMOKATU_VERSION is the header's. */
uint32_t hemokatu_version(void);

/* Refusals 1 to 5 of any bytes. */
HemokatuJudgement hemokatu_judge(const uint8_t *sheet, size_t sheet_len);

/* What a sheet with so many points and nodes needs; a size below it is refusal 6.
 * All 0 for more than 16 points or 1024 nodes: such a sheet is refused before its areas are looked at. */
HemokatuSizes hemokatu_sizes(size_t points, size_t nodes);

/* Decodes one sheet.
 * Refusals 1 to 6 leave ids and lengths untouched, refusals 7 to 11 zero them, and a match zeroes what is behind the path.
 * The other areas are for the work: what stands in them before has no part in the answer. What stands there afterwards is the
 * library's choice; no later call reads it before writing. A length is in numbers. An area of several slices is as large as the
 * least of them, and an odd number at the end of two halves is not used. */
HemokatuAnswered hemokatu_decode(
    const uint8_t *sheet, size_t sheet_len,        /* the sheet, only read */
    double *labels, size_t labels_len,             /* 2 x node: a search's metres to each node, then the same with penalties */
    size_t *came_from, size_t came_from_len,       /* the road by which it came to each node */
    double *entries, size_t entries_len,           /* 2 x heap: what its entries are ordered by, then their penalised metres */
    size_t *links, size_t links_len,               /* 2 x heap: the heap of their numbers, then their nodes */
    size_t *covered, size_t covered_len,           /* the roads covered, in order of first traversal, */
    double *coverage, size_t coverage_len,         /* and the metres covered of each */
    uint64_t *ids, size_t ids_len,                 /* answer list: the ids of the path's roads */
    double *lengths, size_t lengths_len            /* answer list: their lengths in metres */
);

/* What a path costs: each road its class's price for each metre it starts, so its whole length rounded up to the metre.
 * Refused with HEMOKATU_COUNTS: lists of unequal length, or of more than HEMOKATU_MOST_PATH entries. Then with HEMOKATU_VALUE:
 * a price above its limit, a class above HEMOKATU_MOST_CLASS, or a length that has its sign bit set or is above HEMOKATU_MOST_F64. */
HemokatuCharged hemokatu_charge(
    HemokatuTariff tariff,
    const uint8_t *classes, size_t classes_len, /* the class of each road, only read */
    const double *lengths, size_t lengths_len   /* its length in metres, only read */
);

#ifdef __cplusplus
}
#endif

#endif
