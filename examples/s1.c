// Writes sheet S1, a line of two points on one road, to standard output: how a host lays out a sheet.
#include "sheet.h"
#include <stdio.h>

enum { ROOM = 400 };

static uint8_t sheet[ROOM];

// A point that looks east, of class and form 3, with one row: it lies `along` metres along road 0.
static void point(const Places *at, size_t i, double dnp, uint8_t limit, double along) {
    put_point(sheet + at->points + i * HEMOKATU_POINT_SIZE, &(Point){.dnp = dnp, .bearing = 90, .frc = 3, .fow = 3, .limit = limit, .rows = 1});
    put_row(sheet + at->rows + i * HEMOKATU_ROW_SIZE, &(Row){.road = 0, .distance = 0, .bearing = 90, .along = along, .line_length = 100});
}

// Road 0, id 700, from node 0 to node 1, and the lists: it is the only one that leaves node 0, and none leaves node 1.
static void road(const Places *at) {
    static const uint32_t starts[] = {0, 1, 1}, numbers[] = {0};
    put_road(sheet + at->roads, &(Road){.id = 700, .length = 100, .source = 0, .target = 1, .frc = 3, .fow = 3, .access = 0});
    memcpy(sheet + at->lists, starts, sizeof starts);
    memcpy(sheet + at->numbers, numbers, sizeof numbers);
}

int main(void) {
    const Counts counts = {.kind = HEMOKATU_KIND_LINE, .points = 2, .nodes = 2, .roads = 1, .rows = 2, .goals = 1};
    const Places at = places_of(&counts);
    const Settings settings = default_settings();
    if (at.total != ROOM) return 2;
    put_header(sheet, &counts);
    put_settings(sheet + at.settings, &settings);
    point(&at, 0, 50, 3, 25);
    point(&at, 1, 0, HEMOKATU_NO_PATH_ENTRY, 75);
    road(&at);
    // all distances are 0; the goal row is that of node 0, where the road of the second point's row begins
    put32(sheet + at.goals + HEMOKATU_GOAL_NODE, 0);
    return fwrite(sheet, 1, at.total, stdout) != at.total;
}
