/*
 * square.c: the library from C or C++. Extracts a square with a square hole, binds the hole and prints what was found,
 * without the points in the middle of a side, and each contour's area.
 *
 * Build it where include/ and lib/ are, as
 *
 *     cc -std=c99 -I include examples/c/square.c lib/libguovdamas.a -o square
 */
#include <stdio.h>
#include <string.h>

#include "guovdamas.h"

#define LINKS 10
#define NODES 10
#define CONTOURS (LINKS / 3)

/*
 * A hull from (0,0) to (10,10) with a joint at (5,0), and a hole from (2,2) to (8,8) with a joint at (8,5); links by
 * their point a, nodes by their points.
 */
static const int32_t ax[LINKS] = {0, 0, 0, 2, 2, 2, 5, 8, 8, 10};
static const int32_t ay[LINKS] = {0, 0, 10, 2, 2, 8, 0, 2, 5, 0};
static const int32_t bx[LINKS] = {5, 0, 10, 8, 2, 8, 10, 8, 8, 10};
static const int32_t by[LINKS] = {0, 10, 10, 2, 8, 8, 0, 5, 8, 10};
static const uint32_t a_id[LINKS] = {0, 0, 1, 2, 2, 3, 4, 5, 6, 8};
static const uint32_t b_id[LINKS] = {4, 1, 9, 5, 3, 7, 8, 6, 7, 9};
/* 1 where the left of a to b is filled */
static const uint8_t top[LINKS] = {1, 0, 0, 0, 1, 1, 1, 0, 0, 1};
static const uint32_t start[NODES + 1] = {0, 2, 4, 6, 8, 10, 12, 14, 16, 18, 20};
static const uint32_t list[2 * LINKS] = {0, 1, 1, 2, 3, 4, 4, 5, 0, 6, 3, 7, 7, 8, 5, 8, 6, 9, 2, 9};

/* What extraction and binding write. */
static uint8_t state[LINKS];
static int32_t points[2 * LINKS];
static uint32_t first[CONTOURS], len[CONTOURS];
static uint8_t kind[CONTOURS];
static uint16_t owner[CONTOURS];

/* Counterclockwise, whatever the size: all points, or all but those on one line with their two neighbours. */
static GuovdamasExtraction extract(bool drop_straight) {
    const GuovdamasSettings settings = {0, false, drop_straight};
    memset(state, GUOVDAMAS_STATE_UNVISITED, sizeof state);
    return guovdamas_extract(ax, LINKS, ay, LINKS, bx, LINKS, by, LINKS, a_id, LINKS, b_id, LINKS, top, LINKS,
                             start, NODES + 1, list, 2 * LINKS, settings,
                             state, LINKS, points, 2 * LINKS, first, CONTOURS, len, CONTOURS, kind, CONTOURS);
}

/* Prints a contour by its record, with the area of its report. */
static void print_contour(const GuovdamasExtraction *found, size_t contour) {
    const GuovdamasRecord record =
        guovdamas_lookup(points, 2 * found->points, first, found->contours, len, found->contours, kind,
                         found->contours, owner, CONTOURS, contour);
    const GuovdamasReport report =
        guovdamas_report(points, 2 * found->points, first, found->contours, len, found->contours, kind,
                         found->contours, owner, CONTOURS, contour);
    static const char *const roles[] = {"hull", "hole", "dropped"};
    uint32_t i;
    printf("%lu %s %lu, %g mm2:", (unsigned long)contour, roles[record.role], (unsigned long)record.owner, report.area);
    for (i = record.first; i < record.first + record.len; i++)
        printf(" (%ld,%ld)", (long)points[2 * i], (long)points[2 * i + 1]);
    printf("\n");
}

int main(void) {
    GuovdamasExtraction found = extract(false);
    GuovdamasBinding bound;
    size_t contour;
    if (found.number != 0) {
        printf("refused %lu at %lu\n", (unsigned long)found.number, (unsigned long)found.place);
        return 1;
    }
    bound = guovdamas_bind(points, 2 * found.points, first, found.contours, len, found.contours, kind, found.contours,
                           false, owner, CONTOURS);
    if (bound.number != 0) {
        printf("refused %lu at %lu\n", (unsigned long)bound.number, (unsigned long)bound.place);
        return 1;
    }
    /* Holes are bound on all points. Without the joints the contours have the same numbers, so their owners hold. */
    found = extract(true);
    printf("contours %lu shapes %lu doubled area %ld\n", (unsigned long)found.contours, (unsigned long)bound.shapes,
           (long)found.kept_area);
    for (contour = 0; contour < found.contours; contour++) print_contour(&found, contour);
    return 0;
}
