/*
 * guovdamas.h: contour extraction, hole binding, and areas and frames in millimetres, as proved in crates/guovdamas.
 * docs/RULES.md has the rules in full.
 *
 * Link with libguovdamas.a (`tools/build library`; x86-64 Linux). examples/c/square.c is a whole program.
 *
 * The functions.
 *   guovdamas_extract     walks a graph, and writes its contours: a contour table with its points
 *   guovdamas_bind        writes the owner of each contour of a table: the shape that it belongs to
 *   guovdamas_lookup      answers one contour's record
 *   guovdamas_report      answers one contour's area and frame, in millimetres
 *   guovdamas_report_all  writes the areas and frames of all contours of a table
 *
 * What they do. They need no memory but what is lent and some stack: extraction 102 KiB, binding 79 KiB. They keep no
 * pointer, have no global state and always return, so any thread may call them. They call nothing but memcpy and memset
 * of the C library.
 *
 * What may be passed. Anything may stand in the lists: what one of the checks below finds wrong is refused with a
 * number and a place. What is left to the caller is C's own rule: each pointer is valid for its length (and not null,
 * even at length 0), a list that is written overlaps no other, and `clockwise` and `drop_straight` are true or false;
 * and, for reports, that the thread rounds to the nearest, as it does unless it was told otherwise (fesetround).
 *
 * What is not seen. Two things would be wrong in a study and are not looked for: links that cross or overlap away from
 * nodes, and tops that contradict one another. Such a graph is walked by the rules all the same. It may be refused with
 * 8 or 9, or give contours that are no outlines. Where the tops are consistent (round every node filled and empty come
 * by turns over the unskipped links; docs/RULES.md, "The third demand"), neither 8 nor 9 is answered, and the areas add
 * up; that is proved.
 *
 * Units. Coordinates are whole numbers in units of 0.01 mm, from -524,288 to 524,288, and y points upward. Areas are
 * doubled and signed, positive when counterclockwise, but in reports. "Before", of points: by x, then by y, strictly.
 *
 * Millimetres. A report is in mm and square mm, as double: an IEEE 754 binary64, answered by value or written to a lent
 * list. Each is a whole number made a double with nothing lost and divided once, rounded to the nearest, a tie to even:
 * a doubled area by 20000, a coordinate by 100. Zero is +0.0. Where there is no contour to report the doubles are NaN
 * (it is not said which), since a 0 would go unseen in a sum.
 *
 * Words. A link is skipped (lent with state 1), a walk rejected (too small), a point straight (on one line with its two
 * neighbours round the contour), a hole dropped (there is no hull), a call refused (answered by a number other than 0).
 * The scan stands at the lowest unvisited link.
 *
 * Numbers. The checks run in the order of their numbers, each over all of the input before the next. n is the length of
 * a_id, m is one less than the length of start.
 *
 *   no.  given when                                                               place
 *    0   done                                                                     0
 *
 *        guovdamas_extract:
 *    1   n is above 4,096                                                         0
 *    2   a list of the links, or state, is not n long; start is empty; first,     0
 *        len and kind differ in length; there is room for fewer than n points,
 *        or for fewer than n / 3 contours, rounded down
 *    3   a coordinate is out of range; a is not before b; a node id is not        lowest such link
 *        below m; both ids are equal; top or state is neither 0 nor 1
 *    4   a link's a is before the previous link's a                               lowest such link
 *    5   the starts do not begin at 0, fall, or do not end at the length of       0
 *        list; a node has fewer than 2 entries; or list does not hold each link
 *        once at its a node and once at its b node, and nothing else
 *    6   two ends at one node have different points                               lowest such node
 *    7   two unskipped links run from one node in the same direction              lowest such node
 *    8   the first, last or next link that the rules of walking name is not       the link that the
 *        unvisited, or there is none                                              scan stands at
 *    9   a walk has reached its last link and is not back at its beginning        the link that the
 *                                                                                 scan stands at
 *
 *        guovdamas_bind, and of its numbers 10 alone guovdamas_report_all:
 *   10   first, len and kind differ in length; owner is shorter; of               0
 *        guovdamas_report_all, a list to be filled is shorter; there are more
 *        than 4,096 points; points has an odd length; the last contour does not
 *        end at the last point
 *   10   a contour does not begin where the one before it ends, or at 0; is past  lowest such contour
 *        the points; has fewer than 3 points, or equal neighbours round it; a
 *        coordinate is out of range; kind is neither 0 nor 1
 *   11   a hole's anchor (point 1 for clockwise output, else point 0) is not its  lowest such contour
 *        least point, or is before the previous hole's anchor
 *   12   there are two hulls or more, and no edge with fill above lies under a    that hole's contour
 *        hole's anchor
 *
 * What the buffers hold afterwards.
 *   0         what was asked for; see each function.
 *   1 to 7    all is as before the call.
 *   8 and 9   state is as before the call; all of points, first, len and kind is zero.
 *   10 to 12  all is as before the call.
 *
 * guovdamas_lookup and guovdamas_report give no number: they find the contour or they do not, both alike.
 */
#ifndef GUOVDAMAS_H
#define GUOVDAMAS_H

#include <stdbool.h>
#include <stddef.h>
#include <stdint.h>

#ifdef __cplusplus
extern "C" {
#endif

/* Limits: most links of a graph, and most points of a contour table; coordinates lie from -MAX to MAX. */
#define GUOVDAMAS_MAX_LINKS 4096
#define GUOVDAMAS_MAX_COORDINATE 524288

/* States of a link: the first two at the call, the last three after it. */
#define GUOVDAMAS_STATE_UNVISITED 0
#define GUOVDAMAS_STATE_SKIPPED 1
#define GUOVDAMAS_STATE_IN_HOLE 2
#define GUOVDAMAS_STATE_IN_HULL 3

/* Kinds of a contour. */
#define GUOVDAMAS_KIND_HULL 0
#define GUOVDAMAS_KIND_HOLE 1

/* Roles of a contour, in the record of a lookup. */
#define GUOVDAMAS_ROLE_HULL 0
#define GUOVDAMAS_ROLE_HOLE 1
#define GUOVDAMAS_ROLE_DROPPED 2

/* The owner of a dropped hole: one where there is no hull. */
#define GUOVDAMAS_DROPPED 65535

/* How outlines are asked for. */
typedef struct {
    uint64_t minimum;   /* least area kept, in whole square units (0 keeps all): absolute doubled area >= 2 * minimum */
    bool clockwise;     /* the output's direction */
    bool drop_straight; /* straight points are not written: see guovdamas_extract */
} GuovdamasSettings;

/*
 * What guovdamas_extract answers. After a refusal the counts and totals are 0. The counts of contours and points are of
 * what is written; the rest is of the walks, before straight points are dropped.
 */
typedef struct {
    uint32_t number;       /* 0 done, or 1 to 9 */
    size_t place;          /* 0, or the link or node that is at fault */
    size_t contours;       /* contours kept */
    size_t points;         /* their points */
    size_t rejected;       /* walks rejected: too small */
    size_t walked;         /* links walked, by kept and rejected walks */
    size_t left_out;       /* walks kept of which fewer than 3 points were left: proved to be 0, see below */
    int64_t kept_area;     /* sum of the doubled areas of the walks kept */
    int64_t rejected_area; /* and of the walks rejected */
} GuovdamasExtraction;

/* What guovdamas_bind answers. After a refusal both counts are 0. */
typedef struct {
    uint32_t number;  /* 0 done, or 10 to 12 */
    uint32_t place;   /* 0, or the contour that is at fault */
    uint32_t shapes;  /* hulls */
    uint32_t dropped; /* holes dropped, since there is no hull */
} GuovdamasBinding;

/* What guovdamas_lookup answers. All fields are 0 where the contour has no record. */
typedef struct {
    uint32_t found; /* 1, or 0 */
    uint32_t role;  /* 0 a hull, 1 a hole, 2 a hole that was dropped */
    uint32_t owner; /* the shape's number; 65,535 for a dropped hole */
    uint32_t first; /* the position of the first of its points */
    uint32_t len;   /* how many points it has */
} GuovdamasRecord;

/* What guovdamas_report answers. Where there is no such contour found is 0, and all five doubles are NaN. */
typedef struct {
    uint32_t found; /* 1, or 0 */
    double area;    /* signed, in square millimetres: positive when counterclockwise */
    double left;    /* the frame, in millimetres: the least x, */
    double bottom;  /* the least y, */
    double right;   /* the greatest x */
    double top;     /* and the greatest y of its points */
} GuovdamasReport;

/* What guovdamas_report_all answers. After a refusal both counts are 0. */
typedef struct {
    uint32_t number; /* 0 done, or 10 */
    size_t place;    /* 0, or the contour that is at fault */
    size_t contours; /* entries written in front of each list */
    size_t missing;  /* of these, contours of which there is no report: NaN in every list */
} GuovdamasReports;

/*
 * Checks 1 to 7, then the walks.
 *
 * Read, for n links (n is a_id_len): ax, ay, bx, by, the points a and b of each link; a_id, b_id, the nodes of both;
 * top, 1 where the left of a to b is filled, else 0. For m nodes: start, m + 1 positions in list; list, link numbers,
 * those of node v from start[v] up to start[v + 1]. settings: see there.
 *
 * Written: state, n long, 0 for an unvisited link and 1 for a skipped one; points, x and y in turn, with room for n
 * points or more; first, len and kind, of one length, with room for n / 3 contours or more: the position of a contour's
 * first point, how many points it has, and 0 for a hull or 1 for a hole.
 *   0:        state has 2 for every link of a hole and 3 for every link of a hull, of rejected walks too, and 1 for a
 *             skipped one; points has the points of the contours kept, one contour after the other in the order found,
 *             and zeros after them; first, len and kind have the contours, and zeros after them.
 *   1 to 7:   all is as before the call.
 *   8 and 9:  state is as before the call; all of points, first, len and kind is zero.
 *
 * With drop_straight, straight points are removed from each contour before it is written: the one at the lowest
 * position first, then the lowest of the list that is left, until there is none or fewer than 3 points remain; a
 * contour of fewer is left out of the table. It is proved that none is: after checks 1 to 7, the points that go are
 * those that are straight in the full contour, and 3 or more remain. Nothing else changes: neither which walks are
 * kept, nor state, nor a refusal. So a contour has the same number and kind with it and without. guovdamas_bind wants
 * the full points: who wants both extracts twice, binds the full table, and takes the owners for the other.
 */
GuovdamasExtraction guovdamas_extract(
    const int32_t *ax, size_t ax_len, const int32_t *ay, size_t ay_len,
    const int32_t *bx, size_t bx_len, const int32_t *by, size_t by_len,
    const uint32_t *a_id, size_t a_id_len, const uint32_t *b_id, size_t b_id_len,
    const uint8_t *top, size_t top_len,
    const uint32_t *start, size_t start_len, const uint32_t *list, size_t list_len,
    GuovdamasSettings settings,
    uint8_t *state, size_t state_len,
    int32_t *points, size_t points_len,
    uint32_t *first, size_t first_len, uint32_t *len, size_t len_len, uint8_t *kind, size_t kind_len);

/*
 * Checks 10 to 12, and the owner of every contour.
 *
 * Read: the points and the contour table as extraction leaves them, cut to the contours and points that it counted, and
 * the direction that it was given. Extraction without drop_straight, that is: with it, a hole's least point may stand
 * elsewhere than where its anchor is sought (11).
 *
 * Written: owner, as many as there are contours or more.
 *   0:         a hull's owner is its own shape number, hulls counted from 0; a hole's is the number of the shape that
 *              it belongs to, or 65,535 where there is no hull. What is past the contours is as before the call.
 *   10 to 12:  owner is as before the call.
 */
GuovdamasBinding guovdamas_bind(
    const int32_t *points, size_t points_len,
    const uint32_t *first, size_t first_len, const uint32_t *len, size_t len_len, const uint8_t *kind, size_t kind_len,
    bool clockwise,
    uint16_t *owner, size_t owner_len);

/*
 * One contour's record. None is found exactly when the number is not below the count, the table fails check 10 (which
 * asks for an owner for each contour), or the contour's owner is not right. It is right if it is, for a hull, its own
 * shape number; for a hole where there are hulls, any number below the number of hulls; for a hole where there are
 * none, 65,535. Nothing is written.
 */
GuovdamasRecord guovdamas_lookup(
    const int32_t *points, size_t points_len,
    const uint32_t *first, size_t first_len, const uint32_t *len, size_t len_len, const uint8_t *kind, size_t kind_len,
    const uint16_t *owner, size_t owner_len,
    size_t contour);

/*
 * One contour's area and frame. There is none exactly when guovdamas_lookup finds no record for the same arguments.
 * Checks 11 and 12 are not asked: any table that passes check 10 is reported, whether its holes can be bound or not,
 * and with straight points or without. Nothing is written.
 */
GuovdamasReport guovdamas_report(
    const int32_t *points, size_t points_len,
    const uint32_t *first, size_t first_len, const uint32_t *len, size_t len_len, const uint8_t *kind, size_t kind_len,
    const uint16_t *owner, size_t owner_len,
    size_t contour);

/*
 * Check 10, asked once, and the area and frame of every contour.
 *
 * Read: the points, the contour table and its owners, as guovdamas_report does.
 *
 * Written: area, left, bottom, right and top, each as many as there are contours or more.
 *   0:   entry c of each list is what guovdamas_report answers for contour c: NaN in all five where it finds none,
 *        since the owner is not right. What is past the contours is as before the call.
 *   10:  all is as before the call.
 */
GuovdamasReports guovdamas_report_all(
    const int32_t *points, size_t points_len,
    const uint32_t *first, size_t first_len, const uint32_t *len, size_t len_len, const uint8_t *kind, size_t kind_len,
    const uint16_t *owner, size_t owner_len,
    double *area, size_t area_len,
    double *left, size_t left_len, double *bottom, size_t bottom_len,
    double *right, size_t right_len, double *top, size_t top_len);

#ifdef __cplusplus
}
#endif

#endif
