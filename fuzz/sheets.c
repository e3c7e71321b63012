// Well-formed sheets from the drawn numbers: streets on a grid or roads anywhere, points on a walk along the roads.
#include "fuzz.h"

// the sheet in hand
static Counts counts;
static Point point[HEMOKATU_MOST_POINTS];
static Road road[HEMOKATU_MOST_ROADS];
static double heading[HEMOKATU_MOST_ROADS];  // the bearing of each
static Row row[HEMOKATU_MOST_ROWS];
static uint32_t starts[HEMOKATU_MOST_NODES + 1], numbers[HEMOKATU_MOST_ROADS];
static uint8_t goal[HEMOKATU_MOST_NODES];    // whether a node has a goal row
static uint32_t on[HEMOKATU_MOST_POINTS];    // the road that a point lies on,
static double along[HEMOKATU_MOST_POINTS];   // and where
static uint32_t width;                       // of the grid
static int wild;                             // whether values at the edges of their ranges come

// ---- values

// x, or where the sheet is wild now and then a value that code could stumble over
static double amount(double x) {
    static const double edges[] = {0, 5e-324, 2.2250738585072014e-308, 1e-9, 0.03, 1, 5, 10, 35, 100, 1e6, 9999999.999999998, 1e7};
    return wild && one_in(8) ? edges[below(sizeof edges / sizeof *edges)] : x;
}

static double bearing(double x) {
    static const double edges[] = {0, 5e-324, 90, 180, 270, 359.99999999999994, 360};
    return wild && one_in(8) ? edges[below(sizeof edges / sizeof *edges)] : x;
}

static uint8_t class(uint8_t usual) { return one_in(8) ? (uint8_t)below(8) : usual; }

static uint32_t gap(uint32_t a, uint32_t b) { return a > b ? a - b : b - a; }

// the steps between two nodes of the grid
static uint32_t steps(uint32_t v, uint32_t w) { return gap(v % width, w % width) + gap(v / width, w / width); }

// ---- roads and lists

static void add_road(uint32_t source, uint32_t target, double towards, uint8_t frc) {
    if (counts.roads == HEMOKATU_MOST_ROADS) return;
    Road *r = &road[counts.roads];
    heading[counts.roads++] = towards;
    r->length = amount(90 + below(21));
    r->source = source, r->target = target;
    r->frc = class(frc), r->fow = class(3);
    r->access = (uint8_t)one_in(8);
}

// one street of the grid: both ways, one way or none
static void add_street(uint32_t v, uint32_t w, double towards, uint8_t frc) {
    uint32_t ways = below(8);
    if (ways < 6) add_road(v, w, towards, frc);
    if (ways < 5 || ways == 6) add_road(w, v, towards + 180, frc);
}

static void add_streets(uint8_t frc) {
    for (uint32_t v = 0; v < counts.nodes; v++) {
        if ((v + 1) % width != 0 && v + 1 < counts.nodes) add_street(v, v + 1, 90, frc);
        if (v + width < counts.nodes) add_street(v, v + width, 180, frc);
    }
}

static void add_roads_anywhere(uint8_t frc) {
    for (uint32_t k = counts.nodes ? below(2 * counts.nodes + 2) : 0; k > 0; k--) {
        uint32_t source = below(counts.nodes), target = below(counts.nodes);
        add_road(source, target, below(HEMOKATU_MOST_BEARING + 1), frc);
    }
}

// every road in its source's part, in any order
static void make_lists(void) {
    static uint32_t next[HEMOKATU_MOST_NODES];
    memset(starts, 0, sizeof starts);
    for (uint32_t r = 0; r < counts.roads; r++) starts[road[r].source + 1]++;
    for (uint32_t v = 0; v < counts.nodes; v++) next[v] = starts[v], starts[v + 1] += starts[v];
    for (uint32_t r = 0; r < counts.roads; r++) {
        uint32_t first = starts[road[r].source], at = next[road[r].source]++;
        uint32_t other = first + below(at - first + 1);
        numbers[at] = numbers[other];
        numbers[other] = r;
    }
}

// ---- points and rows

// The road that point i lies on: some steps from the last point's, and the metres between.
static void step_to(uint32_t i) {
    uint32_t r = i && !one_in(16) ? on[i - 1] : below(counts.roads);
    double metres = i ? road[r].length - along[i - 1] : 0;
    for (uint32_t k = below(5); i && k > 0; k--) {
        uint32_t first = starts[road[r].target], leaving = starts[road[r].target + 1] - first;
        if (leaving == 0) break;
        r = numbers[first + below(leaving)];
        metres += road[r].length;
    }
    on[i] = r;
    along[i] = road[r].length * below(5) / 4;
    metres -= road[r].length - along[i];
    if (metres > HEMOKATU_MOST_F64) metres = HEMOKATU_MOST_F64;
    if (i) point[i - 1].dnp = amount(metres > 0 ? metres : 0);
}

static void add_row(uint32_t i, uint32_t r) {
    Row *w = &row[counts.rows++];
    int mine = r == on[i];
    w->road = r;
    w->distance = amount(mine ? below(80) / 10.0 : below(120));
    w->bearing = bearing(heading[r]);
    w->line_length = amount(road[r].length);
    w->along = amount(mine ? along[i] : road[r].length * below(5) / 4);
    point[i].rows++;
    if (i) goal[road[r].source] = 1;
}

static void make_point(uint32_t i, uint8_t frc) {
    Point *p = &point[i];
    p->dnp = 0, p->rows = 0;
    p->frc = class(frc), p->fow = class(3);
    p->bearing = (uint16_t)below(HEMOKATU_MOST_BEARING + 1);
    p->limit = one_in(4) ? (uint8_t)below(8) : HEMOKATU_MOST_CLASS;
    if (counts.roads == 0) return;
    step_to(i);
    if (!one_in(8)) p->bearing = (uint16_t)heading[on[i]];
    uint32_t others = 1 + counts.roads / (1 + below(16));
    for (uint32_t r = 0; r < counts.roads; r++) {
        int room = p->rows < HEMOKATU_MOST_POINT_ROWS - (r < on[i]);
        if (room && (r == on[i] ? !one_in(64) : one_in(others))) add_row(i, r);
    }
}

static void make_points(uint8_t frc) {
    for (uint32_t i = 0; i < counts.points; i++) make_point(i, frc);
    for (uint32_t i = 0; i < counts.points; i++) {
        if (i + 1 < counts.points && !one_in(32)) continue;
        point[i].limit = HEMOKATU_NO_PATH_ENTRY;
        point[i].dnp = 0;
    }
    for (uint32_t v = 0; v < counts.nodes; v++) {
        if (one_in(8)) goal[v] = 1;
        counts.goals += goal[v];
    }
}

// ---- bytes

// the defaults, or more of what a match asks for
static Settings draw_settings(void) {
    int loose = one_in(2), usual = one_in(2);
    Settings s = default_settings();
    s.search_radius = amount(s.search_radius);
    s.most_bearing_difference = amount(loose ? 180 : s.most_bearing_difference);
    s.most_candidate_distance = amount(loose ? 200 : s.most_candidate_distance);
    s.distance_weight = amount(s.distance_weight);
    s.bearing_weight = amount(s.bearing_weight);
    s.frc_weight = amount(s.frc_weight);
    s.fow_weight = amount(s.fow_weight);
    s.length_tolerance = amount(s.length_tolerance);
    s.absolute_tolerance = amount(loose ? 1000 : s.absolute_tolerance);
    s.search_factor = amount(s.search_factor);
    s.slip_penalty = amount(s.slip_penalty);
    s.access_penalty = amount(s.access_penalty);
    s.snap_extension = amount(s.snap_extension);
    if (!usual) s.frc_tolerance = one_in(4) ? (uint8_t)draw() : (uint8_t)below(8);
    s.snap = (uint8_t)below(2);
    if (!usual) s.most_candidates = (uint16_t)below(HEMOKATU_MOST_CANDIDATES + 1);
    return s;
}

// Node distances to a node: none, short of the way, beyond it, or any.
static void put_distances(uint8_t *b, uint32_t from, uint32_t mode) {
    for (uint32_t v = 0; v < counts.nodes; v++) {
        double each = mode == 0 ? 0 : mode == 1 ? 90 : 200;
        put_distance(b, v, amount(mode == 3 ? below(1000) : each * steps(v, from)));
    }
}

static void put_all_distances(uint8_t *first, uint8_t *goals) {
    uint32_t mode = below(4), ends = below(4), last = counts.points ? counts.points - 1 : 0;
    int known = counts.points && counts.roads;
    size_t nodes = HEMOKATU_DISTANCE_SIZE * counts.nodes;
    put_distances(first, known ? road[on[0]].source : 0, ends);
    put_distances(first + nodes, known ? road[on[last]].target : 0, ends);
    for (uint32_t v = 0; v < counts.nodes; v++) {
        if (!goal[v]) continue;
        put32(goals + HEMOKATU_GOAL_NODE, v);
        put_distances(goals + HEMOKATU_GOAL_DISTANCES, v, mode);
        goals += HEMOKATU_GOAL_DISTANCES + nodes;
    }
}

static size_t put_sheet(uint8_t *b) {
    Places at = places_of(&counts);
    memset(b, 0, at.total);
    put_header(b, &counts);
    Settings settings = draw_settings();
    put_settings(b + at.settings, &settings);
    for (uint32_t i = 0; i < counts.points; i++) put_point(b + at.points + HEMOKATU_POINT_SIZE * i, &point[i]);
    for (uint32_t r = 0; r < counts.roads; r++) {
        road[r].id = one_in(16) ? draw() : r + 700;
        put_road(b + at.roads + HEMOKATU_ROAD_SIZE * r, &road[r]);
    }
    memcpy(b + at.lists, starts, HEMOKATU_LIST_ENTRY_SIZE * (counts.nodes + 1));
    memcpy(b + at.numbers, numbers, HEMOKATU_LIST_ENTRY_SIZE * counts.roads);
    for (uint32_t w = 0; w < counts.rows; w++) put_row(b + at.rows + HEMOKATU_ROW_SIZE * w, &row[w]);
    put_all_distances(b + at.distances, b + at.goals);
    return at.total;
}

// ---- the whole sheet

static void draw_counts(Size size) {
    counts = (Counts){0};
    uint32_t points = below(64);
    counts.points = points < 2 ? 0 : points < 5 ? 1 : points < 40 ? 2 : 3 + below(size == SMALL ? 4 : 14);
    counts.nodes = size == FULL ? HEMOKATU_MOST_NODES : size == LARGE ? 25 + below(200) : one_in(64) ? 0 : 1 + below(one_in(2) ? 8 : 24);
    counts.kind = counts.points == 2 && one_in(3) ? HEMOKATU_KIND_POINT_ALONG_LINE : HEMOKATU_KIND_LINE;
    if (one_in(32)) counts.kind = HEMOKATU_KIND_GEO_COORDINATE + below(7);
    width = size == FULL ? 32 : 1 + below(6);
}

size_t make_sheet(uint8_t *b, Size size) {
    draw_counts(size);
    wild = one_in(3);
    memset(goal, 0, sizeof goal);
    uint8_t frc = (uint8_t)below(8);
    if (one_in(4))
        add_roads_anywhere(frc);
    else
        add_streets(frc);
    make_lists();
    make_points(frc);
    return put_sheet(b);
}
