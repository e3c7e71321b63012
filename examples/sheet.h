// Writes the parts of a sheet by the constants of hemokatu.h: for the examples, the benchmarks and the fuzz run.
// x86-64 is little-endian, so values are copied as they are. What no function writes must be 0 before.
#ifndef SHEET_H
#define SHEET_H

#include "../include/hemokatu.h"
#include <string.h>

static inline void put16(uint8_t *b, uint16_t v) { memcpy(b, &v, sizeof v); }
static inline void put32(uint8_t *b, uint32_t v) { memcpy(b, &v, sizeof v); }
static inline void put64(uint8_t *b, uint64_t v) { memcpy(b, &v, sizeof v); }
static inline void put_double(uint8_t *b, double v) { memcpy(b, &v, sizeof v); }

// The header's first words.
typedef struct {
    uint32_t kind, points, nodes, roads, rows, goals;
} Counts;

// Where sections begin, and the numbers of the lists and the goal rows behind them.
typedef struct {
    size_t settings, points, roads, lists, numbers, rows, distances, goals, goal_size, total;
} Places;

static inline Places places_of(const Counts *c) {
    Places at;
    size_t nodes = c->nodes;
    at.settings = HEMOKATU_HEADER_SIZE;
    at.points = at.settings + HEMOKATU_SETTINGS_SIZE;
    at.roads = at.points + (size_t)c->points * HEMOKATU_POINT_SIZE;
    at.lists = at.roads + (size_t)c->roads * HEMOKATU_ROAD_SIZE;
    at.numbers = at.lists + (nodes + 1) * HEMOKATU_LIST_ENTRY_SIZE;
    at.rows = at.numbers + (size_t)c->roads * HEMOKATU_LIST_ENTRY_SIZE;
    at.distances = at.rows + (size_t)c->rows * HEMOKATU_ROW_SIZE;
    at.goals = at.distances + 2 * nodes * HEMOKATU_DISTANCE_SIZE;
    at.goal_size = HEMOKATU_GOAL_DISTANCES + nodes * HEMOKATU_DISTANCE_SIZE;
    at.total = at.goals + (size_t)c->goals * at.goal_size;
    return at;
}

static inline void put_header(uint8_t *b, const Counts *c) {
    Places at = places_of(c);
    put32(b + HEMOKATU_HEADER_KIND, c->kind);
    put32(b + HEMOKATU_HEADER_POINTS, c->points);
    put32(b + HEMOKATU_HEADER_NODES, c->nodes);
    put32(b + HEMOKATU_HEADER_ROADS, c->roads);
    put32(b + HEMOKATU_HEADER_ROWS, c->rows);
    put32(b + HEMOKATU_HEADER_GOALS, c->goals);
    put32(b + HEMOKATU_HEADER_SETTINGS_AT, (uint32_t)at.settings);
    put32(b + HEMOKATU_HEADER_POINTS_AT, (uint32_t)at.points);
    put32(b + HEMOKATU_HEADER_ROADS_AT, (uint32_t)at.roads);
    put32(b + HEMOKATU_HEADER_LISTS_AT, (uint32_t)at.lists);
    put32(b + HEMOKATU_HEADER_ROWS_AT, (uint32_t)at.rows);
    put32(b + HEMOKATU_HEADER_DISTANCES_AT, (uint32_t)at.distances);
    put32(b + HEMOKATU_HEADER_TOTAL, (uint32_t)at.total);
    put32(b + HEMOKATU_HEADER_ZERO, 0);
}

typedef struct {
    double search_radius, most_bearing_difference, most_candidate_distance;
    double distance_weight, bearing_weight, frc_weight, fow_weight;
    double length_tolerance, absolute_tolerance, search_factor, slip_penalty, access_penalty, snap_extension;
    uint8_t frc_tolerance, snap;
    uint16_t most_candidates;
} Settings;

static inline Settings default_settings(void) {
    return (Settings){
        .search_radius = HEMOKATU_DEFAULT_SEARCH_RADIUS,
        .most_bearing_difference = HEMOKATU_DEFAULT_MOST_BEARING_DIFFERENCE,
        .most_candidate_distance = HEMOKATU_DEFAULT_MOST_CANDIDATE_DISTANCE,
        .distance_weight = HEMOKATU_DEFAULT_DISTANCE_WEIGHT,
        .bearing_weight = HEMOKATU_DEFAULT_BEARING_WEIGHT,
        .frc_weight = HEMOKATU_DEFAULT_FRC_WEIGHT,
        .fow_weight = HEMOKATU_DEFAULT_FOW_WEIGHT,
        .length_tolerance = HEMOKATU_DEFAULT_LENGTH_TOLERANCE,
        .absolute_tolerance = HEMOKATU_DEFAULT_ABSOLUTE_TOLERANCE,
        .search_factor = HEMOKATU_DEFAULT_SEARCH_FACTOR,
        .slip_penalty = HEMOKATU_DEFAULT_SLIP_PENALTY,
        .access_penalty = HEMOKATU_DEFAULT_ACCESS_PENALTY,
        .snap_extension = HEMOKATU_DEFAULT_SNAP_EXTENSION,
        .frc_tolerance = HEMOKATU_DEFAULT_FRC_TOLERANCE,
        .snap = HEMOKATU_DEFAULT_SNAP,
        .most_candidates = HEMOKATU_DEFAULT_MOST_CANDIDATES,
    };
}

static inline void put_settings(uint8_t *b, const Settings *s) {
    put_double(b + HEMOKATU_SETTINGS_SEARCH_RADIUS, s->search_radius);
    put_double(b + HEMOKATU_SETTINGS_MOST_BEARING_DIFFERENCE, s->most_bearing_difference);
    put_double(b + HEMOKATU_SETTINGS_MOST_CANDIDATE_DISTANCE, s->most_candidate_distance);
    put_double(b + HEMOKATU_SETTINGS_DISTANCE_WEIGHT, s->distance_weight);
    put_double(b + HEMOKATU_SETTINGS_BEARING_WEIGHT, s->bearing_weight);
    put_double(b + HEMOKATU_SETTINGS_FRC_WEIGHT, s->frc_weight);
    put_double(b + HEMOKATU_SETTINGS_FOW_WEIGHT, s->fow_weight);
    put_double(b + HEMOKATU_SETTINGS_LENGTH_TOLERANCE, s->length_tolerance);
    put_double(b + HEMOKATU_SETTINGS_ABSOLUTE_TOLERANCE, s->absolute_tolerance);
    put_double(b + HEMOKATU_SETTINGS_SEARCH_FACTOR, s->search_factor);
    put_double(b + HEMOKATU_SETTINGS_SLIP_PENALTY, s->slip_penalty);
    put_double(b + HEMOKATU_SETTINGS_ACCESS_PENALTY, s->access_penalty);
    put_double(b + HEMOKATU_SETTINGS_SNAP_EXTENSION, s->snap_extension);
    b[HEMOKATU_SETTINGS_FRC_TOLERANCE] = s->frc_tolerance;
    b[HEMOKATU_SETTINGS_SNAP] = s->snap;
    put16(b + HEMOKATU_SETTINGS_MOST_CANDIDATES, s->most_candidates);
}

typedef struct {
    double dnp;
    uint16_t bearing;
    uint8_t frc, fow, limit;
    uint32_t rows;
} Point;

static inline void put_point(uint8_t *b, const Point *p) {
    put_double(b + HEMOKATU_POINT_DNP, p->dnp);
    put16(b + HEMOKATU_POINT_BEARING, p->bearing);
    b[HEMOKATU_POINT_FRC] = p->frc;
    b[HEMOKATU_POINT_FOW] = p->fow;
    b[HEMOKATU_POINT_LIMIT] = p->limit;
    put32(b + HEMOKATU_POINT_ROWS, p->rows);
}

typedef struct {
    uint64_t id;
    double length;
    uint32_t source, target;
    uint8_t frc, fow, access;
} Road;

static inline void put_road(uint8_t *b, const Road *r) {
    put64(b + HEMOKATU_ROAD_ID, r->id);
    put_double(b + HEMOKATU_ROAD_LENGTH, r->length);
    put32(b + HEMOKATU_ROAD_SOURCE, r->source);
    put32(b + HEMOKATU_ROAD_TARGET, r->target);
    b[HEMOKATU_ROAD_FRC] = r->frc;
    b[HEMOKATU_ROAD_FOW] = r->fow;
    b[HEMOKATU_ROAD_ACCESS] = r->access;
}

typedef struct {
    uint32_t road;
    double distance, bearing, along, line_length;
} Row;

static inline void put_row(uint8_t *b, const Row *w) {
    put32(b + HEMOKATU_ROW_ROAD, w->road);
    put_double(b + HEMOKATU_ROW_DISTANCE, w->distance);
    put_double(b + HEMOKATU_ROW_BEARING, w->bearing);
    put_double(b + HEMOKATU_ROW_ALONG, w->along);
    put_double(b + HEMOKATU_ROW_LINE_LENGTH, w->line_length);
}

// A number of the lists, by its position in them.
static inline void put_listed(uint8_t *b, size_t position, uint32_t v) { put32(b + HEMOKATU_LIST_ENTRY_SIZE * position, v); }

// A distance, by its position among those that follow each other.
static inline void put_distance(uint8_t *b, size_t position, double v) { put_double(b + HEMOKATU_DISTANCE_SIZE * position, v); }

#endif
