/* The C interface of the contour band engine: banding an outline, in integers or in binary64, or a B-spline, foretelling an
 * outline's leaves, finding the tightest band that fits, exchanging one curve of a banded outline, judging points, quoting
 * leaves, drawing the hull of two boxes, handing out a box in binary64.
 *
 * An outline is Bezier curves of degree 1 to 5, each from where the one before it ends. Banding puts a narrow band of straight
 * pieces round it: a leaf, which is a stretch of a curve, has m pieces, a box at each of their m + 1 ends, and on each piece a
 * cover, which is the convex hull of its two boxes. A measured point is on the band where a cover holds it. Then every point of
 * the curves is on, and a point that is on lies no farther from a curve than the tolerance.
 *
 * At the root of the repository the library is made, and a program is linked with it, by
 *
 *     bash tools/archive
 *     cc -std=c99 -Iinclude program.c target/staticlib/libcontour.a -o program
 *
 * or, where it is installed (bash install PREFIX), by
 *
 *     cc -std=c99 program.c $(pkg-config --cflags --libs contour_band) -o program
 *
 * The library calls no other, the C library included. The program below bands an arch of one cubic curve. It prints "leaves 1,
 * on, vertices 4"; a test compiles and runs it. examples/inspect.c is one to start from: it reads an outline and points from
 * files. Every name that this header declares begins with contour_ or CONTOUR_.
 *
 *     #include "contour_band.h"
 *     #include <stdio.h>
 *
 *     int main(void) {
 *         enum { M = 3 }; // the pieces of a leaf
 *         const int32_t outline[] = {3, 0, 0, 10, 30, 20, 30, 30, 0};
 *         int32_t records[256 * CONTOUR_BAND_RECORD(M)];
 *         struct contour_band_answer band = contour_band(outline, 9, 44, M, records, 256 * CONTOUR_BAND_RECORD(M));
 *         if (band.refusal != CONTOUR_BAND_ACCEPTED) {
 *             fprintf(stderr, "%s\n", contour_refusal_text(band.refusal));
 *             return 1;
 *         }
 *         // Only the records written are judged against.
 *         struct contour_band_judgement point = contour_judge(records, CONTOUR_BAND_RECORD(M) * band.leaves, M, 240, 363);
 *         // The first cover of the first leaf: its boxes 0 and 1.
 *         const struct contour_band_box first = {records[2], records[3], records[4], records[5]};
 *         const struct contour_band_box second = {records[6], records[7], records[8], records[9]};
 *         int32_t vertices[CONTOUR_BAND_VERTEX_ROOM];
 *         struct contour_band_drawing cover = contour_draw(first, second, vertices, CONTOUR_BAND_VERTEX_ROOM);
 *         printf("leaves %d, %s, vertices %d\n", (int)band.leaves, point.on ? "on" : "off", (int)cover.vertices);
 *         return 0;
 *     }
 *
 * Ownership: every list is the caller's, before and after. A call reads and writes the lists it is lent and no other memory,
 * allocates nothing, and keeps no pointer and no state once it has returned. Every call returns.
 *
 * Pointers: each must be aligned for the numbers it points to. NULL is taken where the length is 0, and nowhere else. Lists
 * that one call is lent must not overlap: a call with lists that do may end the program by a segmentation fault. Lengths
 * count numbers, not bytes, and every length and all contents are taken.
 *
 * Threads: any number of calls may run at once as long as no list that one of them writes to (the records, the depths, the
 * answers, the vertices) is lent to another. Lists that are only read (the outline, a new curve, a spline's points, the
 * leaves, the points) may be shared. */
#ifndef CONTOUR_BAND_H
#define CONTOUR_BAND_H

#include <stddef.h>
#include <stdint.h>

#ifdef __cplusplus
extern "C" {
#endif

/* The version of this header, in words and as the number that contour_version answers: 10000 times its first, 100 times its
 * second and its third part. */
#define CONTOUR_BAND_VERSION "0.1.0"
#define CONTOUR_BAND_VERSION_NUMBER 100

/* How many numbers a leaf record of m pieces has: the curve, the node, and four of a box at each of m + 1 break points. */
#define CONTOUR_BAND_RECORD(m) (6 + 4 * (m))

/* The ranges. A tolerance is in sixteenths of a stage unit, a coordinate in stage units, m a number of pieces. A curve of
 * degree 4 or 5 takes 3 to 8 pieces, any other 1 to 8. */
#define CONTOUR_BAND_DEGREE_MIN 1
#define CONTOUR_BAND_DEGREE_MAX 5
#define CONTOUR_BAND_PIECES_MIN 1
#define CONTOUR_BAND_PIECES_MAX 8
#define CONTOUR_BAND_TOLERANCE_MIN 2
#define CONTOUR_BAND_TOLERANCE_MAX 1048576
#define CONTOUR_BAND_COORDINATE_MIN (-1048576)
#define CONTOUR_BAND_COORDINATE_MAX 1048576
#define CONTOUR_BAND_CURVES_MAX 4096

/* How many numbers a curve has that is exchanged for another: a degree, and x and y of six points. */
#define CONTOUR_BAND_CURVE 13

/* What a B-spline's list of points may have: how many numbers, two for each point, and coordinates in stage units. */
#define CONTOUR_BAND_SPLINE_LENGTH_MIN 8
#define CONTOUR_BAND_SPLINE_LENGTH_MAX 8198
#define CONTOUR_BAND_SPLINE_COORDINATE_MIN (-131072)
#define CONTOUR_BAND_SPLINE_COORDINATE_MAX 131072

/* What the bench station takes; how many numbers it must lend for its leaves at most; and how many bytes of stack its call
 * takes at most, whatever it is given. The call calls nothing but functions of the library, none of which calls itself or
 * has an array that goes with the input; rust/contour-band/tests/stack.c measures it at every degree and every m, and what
 * is promised is a fifth more than the most that was seen. */
#define CONTOUR_BAND_STATION_CURVES_MAX 64
#define CONTOUR_BAND_STATION_LEAVES_MAX 128
#define CONTOUR_BAND_STATION_ROOM(m) (CONTOUR_BAND_STATION_LEAVES_MAX * CONTOUR_BAND_RECORD(m))
#define CONTOUR_BAND_STATION_STACK 6144

/* How many numbers each point of a list wants for its answer; and how many bytes of stack judging a list of points takes at
 * most, whatever it is given, which rust/contour-band/tests/stack.c measures. */
#define CONTOUR_BAND_ANSWER 3
#define CONTOUR_BAND_POINTS_STACK 34816

/* How many records a quote takes; and how many bytes of stack it takes at most, whatever it is given, which
 * rust/contour-band/tests/stack.c measures. */
#define CONTOUR_BAND_QUOTE_RECORDS_MAX 1048576
#define CONTOUR_BAND_QUOTE_STACK 17408

/* How many bytes of stack an exchange takes at most, whatever it is given, which rust/contour-band/tests/stack.c measures. */
#define CONTOUR_BAND_EXCHANGE_STACK 12288

/* The largest number of a box and of a point, in sixteenths of a stage unit; its negative is the least. */
#define CONTOUR_BAND_FARTHEST 536870912

/* How many numbers drawing asks for: x and y of eight vertices. */
#define CONTOUR_BAND_VERTEX_ROOM 16

/* The refusals, each with its condition and its spot. They stand in the order in which an operation tries them: banding 18, 1
 * to 8, 17 and 20 (5, 2, 20, 3, 4 and 17 curve by curve), and 19 for the bench station alone; banding in binary64 those of
 * banding but for 19, and 21 of each coordinate before 4; banding a B-spline 18, 1, 24, 25, 7 and 8; foretelling those of
 * banding but for 7 and 19; the tightest band those of banding but for 1, 7, 8 and 19; exchanging a curve those of banding
 * but for 8 and 19, then 22 and 23, then those of banding the changed outline; judging 18 and 9 to 11, a list of points 18, 9,
 * 10, 101 and then 8, and 11 is the answer to a point; a quote 18, 9, 26 and 10; banding and judging together those of banding
 * and then 11, drawing 12 and 13, a box in binary64 12. A refusal leaves every lent list as it was. contour_refusal_text has
 * each in words. */
enum contour_band_refusal {
    CONTOUR_BAND_ACCEPTED = 0,         /* nothing is refused; 0 */
    CONTOUR_BAND_PIECES = 18,          /* m is not 1 to 8; 0 */
    CONTOUR_BAND_TOLERANCE = 1,        /* the tolerance is outside its range; 0 */
    CONTOUR_BAND_EMPTY_OUTLINE = 6,    /* the outline has no number; 0 */
    CONTOUR_BAND_TOO_MANY_CURVES = 5,  /* a 4,097th curve begins, for the bench station a 65th; the index of its degree */
    CONTOUR_BAND_DEGREE = 2,           /* a degree is not 1 to 5; its index */
    CONTOUR_BAND_TOO_FEW_PIECES = 20,  /* a degree is 4 or 5, and m is below 3; its index */
    CONTOUR_BAND_CUT_SHORT = 3,        /* the outline ends inside a curve; the outline's length */
    CONTOUR_BAND_NOT_WHOLE = 21,       /* a coordinate in binary64 is no whole number, infinities and NaN included; its index.
                                        * 21 and then 4 are tried of each coordinate in turn */
    CONTOUR_BAND_COORDINATE = 4,       /* a coordinate is outside its range; the index of the curve's first such */
    CONTOUR_BAND_GAP = 17,             /* a curve does not begin where the one before it ends; the index of its degree */
    CONTOUR_BAND_SPLINE_LENGTH = 24,   /* points_length is odd, below 8 or above 8,198; points_length */
    CONTOUR_BAND_SPLINE_COORDINATE = 25, /* a coordinate of a B-spline is outside its range; the index of the first such */
    CONTOUR_BAND_TOO_WIDE = 7,         /* a box at the last depth, 8, or 4 for degrees 4 and 5, has a longer diagonal than the
                                        * tolerance; 512 * curve + node, for the first */
    CONTOUR_BAND_TOO_MANY_LEAVES = 19, /* the bench station's outline has more than 128 leaves; the number of leaves */
    CONTOUR_BAND_NO_SUCH_CURVE = 22,   /* the curve to exchange is not in the outline; its number */
    CONTOUR_BAND_OTHER_RECORDS = 23,   /* the records given are not those of the outline, see contour_exchange; the first index
                                        * at which they differ, or the least of their count, records_length and the count of
                                        * the outline's */
    CONTOUR_BAND_TOO_FEW_RECORDS = 8,  /* records_length is less than (6 + 4 * m) * leaves; the number of leaves. Of points:
                                        * answers_length is less than 3 * points; the number of points. Of foretelling:
                                        * depths_length is less than the curves; the number of curves */
    CONTOUR_BAND_LEAVES_LENGTH = 9,    /* leaves_length is 0 or no multiple of 6 + 4 * m; leaves_length */
    CONTOUR_BAND_TOO_MANY_RECORDS = 26, /* a quote's leaves are more than 1,048,576 records; leaves_length */
    CONTOUR_BAND_LEAVES_NUMBER = 10,   /* a number of the leaves is bad, see contour_judge; the index of the first such */
    CONTOUR_BAND_ODD_POINTS = 101,     /* points_length is odd; points_length */
    CONTOUR_BAND_POINT = 11,           /* a coordinate of the point is beyond the farthest; 0 for x, else 1 */
    CONTOUR_BAND_BOX_NUMBER = 12,      /* a number of the boxes is bad, see contour_draw; the first such's place, 0 to 7, of
                                        * one box 0 to 3 */
    CONTOUR_BAND_TOO_FEW_VERTICES = 13 /* vertices_length is less than 16; vertices_length */
};

/* What banding answers. */
struct contour_band_answer {
    uint32_t refusal; /* 0 where the outline is accepted, else the number of the refusal */
    uint64_t spot;    /* the refusal's spot; 0 where the outline is accepted */
    uint64_t curves;  /* the curves of the outline, 1 to 4,096; 0 where it is refused */
    uint64_t leaves;  /* the leaves, each a record at the front of the records; 0 where the outline is refused */
    uint64_t nodes;   /* the nodes met, which is 2 * leaves - curves; 0 where the outline is refused */
};

/* Puts a band round an outline.
 *
 * outline: for each curve its degree d, which is 1 to 5, then x and y of its d + 1 control points, in stage units: 3 + 2 * d
 *     numbers, at most 13. There are 1 to 4,096 curves, numbered from 0. Each begins where the one before it ends; the outline
 *     may stay open at its ends.
 * tolerance: the greatest diagonal of a box, in sixteenths of a stage unit.
 * m: how many straight pieces a leaf has, 1 to 8, and 3 to 8 where a curve has degree 4 or 5. The more it has, the fewer
 *     leaves there are as a rule, and the longer is a record. A negative number becomes a large one, and is refused.
 * records: where the leaves are written. A record is 6 + 4 * m numbers: the curve, the node (1 to 511), then for each of the
 *     break points 0 to m, the m-ths of its stretch, x low, x high, y low, y high, in sixteenths of a stage unit. Records
 *     stand by curve, then by parameter. CONTOUR_BAND_RECORD(m) * 256 numbers for each curve are always enough; for a curve
 *     of degree 4 or 5, which is halved four times at most, CONTOUR_BAND_RECORD(m) * 16 are.
 *
 * Accepted: the first CONTOUR_BAND_RECORD(m) * leaves numbers of the records are written, and the numbers past them stay as
 * they were.
 * Refused: every number of the records stays as it was. With a records_length of 0 the answer is refusal 8 for any outline
 * that is otherwise accepted, so its spot says how many leaves to lend room for. */
struct contour_band_answer contour_band(const int32_t *outline, size_t outline_length, int32_t tolerance, uint32_t m,
                                        int32_t *records, size_t records_length);

/* Puts a band round an outline as contour_band does, for the bench station: at most 64 curves and 128 leaves are taken.
 *
 * The parameters and the answer are those of contour_band. CONTOUR_BAND_STATION_ROOM(m) numbers of records are always enough.
 * What this accepts, contour_band accepts with the same report and the same records; and what contour_band accepts with at
 * most 64 curves and 128 leaves, this accepts.
 *
 * Refused: as in contour_band, but 5 falls on the 65th curve, and 19 comes after 7 and before 8: however long the records
 * are, its spot is the number of all leaves. With a records_length of 0 the answer to any outline that is otherwise accepted
 * is 8 or 19, and its spot says how many leaves there are. */
struct contour_band_answer contour_station_band(const int32_t *outline, size_t outline_length, int32_t tolerance,
                                                uint32_t m, int32_t *records, size_t records_length);

/* Puts a band round an outline whose numbers are all in binary64, its degrees too.
 *
 * outline: as for contour_band, in binary64. A coordinate is read where it is a whole number in range, and -0.0 as 0; the list
 *     is not copied.
 * tolerance, m, records: as for contour_band.
 *
 * Accepted: the report and the records are those of contour_band, of the whole numbers read. Records are in whole sixteenths,
 * and contour_judge and contour_judge_points take them.
 * Refused: as in contour_band, and every number of the records stays as it was. A degree that is not exactly 1 to 5 is 2: NaN,
 * 2.5 and -0.0 too. A coordinate that is no whole number is 21, in the place of 4 and before it of each coordinate in turn, so
 * that the first faulty one decides: 2000000.5 is 21, 1e300 is 4. 17 compares the numbers read.
 * Stack: CONTOUR_BAND_STATION_STACK bytes are enough, whatever is given. */
struct contour_band_answer contour_binary64_band(const double *outline, size_t outline_length, int32_t tolerance, uint32_t m,
                                                 int32_t *records, size_t records_length);

/* Puts a band round a uniform cubic B-spline.
 *
 * points: x and y of each of its n points, in stage units: points_length is 2 * n, and n is 4 to 4,099. Four neighbours b0 to
 *     b3 make one cubic curve, with control points (b0 + 4 b1 + b2) / 6, (2 b1 + b2) / 3, (b1 + 2 b2) / 3 and
 *     (b1 + 4 b2 + b3) / 6: n - 3 curves, numbered from 0, of which curve k is that of points k to k + 3, and each begins where
 *     the one before it ends. Sixths are carried exactly, and only the bounds of a box are rounded. Give the first three
 *     points again at the end to close the spline.
 * tolerance, m, records: as for contour_band.
 *
 * Accepted: the report and the records are those of contour_band, of these curves; contour_judge and contour_judge_points take
 * the records, with points in sixteenths of a stage unit.
 * Refused: every number of the records stays as it was. The refusals are 18, 1, 24, 25, 7 and 8, in this order. With a
 * records_length of 0 the answer is refusal 8 for any list of points that is otherwise accepted, so its spot says how many
 * leaves to lend room for.
 * Stack: CONTOUR_BAND_STATION_STACK bytes are enough, whatever is given. */
struct contour_band_answer contour_spline_band(const int32_t *points, size_t points_length, int32_t tolerance, uint32_t m,
                                               int32_t *records, size_t records_length);

/* What foretelling answers. */
struct contour_band_foretold {
    uint32_t refusal; /* 0 where nothing is refused, else the number of the refusal */
    uint64_t spot;    /* the refusal's spot; 0 where nothing is refused */
    uint64_t leaves;  /* the most leaves that banding can count; 0 where a curve has no depth or anything is refused */
    uint64_t nodes;   /* the most nodes that banding can count; 0 where a curve has no depth or anything is refused */
};

/* Foretells how many leaves contour_band can count for an outline, without halving a curve: with room for so many records
 * lent, and the same tolerance and m, it refuses neither with 7 nor with 8.
 *
 * outline, tolerance, m: as for contour_band.
 * depths: where one number is written for each curve: its depth, or -1 where it has none. The depth is the least j, up to the
 *     greatest depth of the curve, 8, or 4 for degrees 4 and 5, with
 *
 *         2 * (16 * G * M + 20000 * 4^j)^2 <= (10000 * tolerance * 4^j)^2
 *
 *     where M is the largest second difference of the curve's control points, in x or in y, and G goes by its degree and m
 *     (the repository's docs/ROWS.md has the table). No leaf of the curve is deeper.
 *
 * Accepted: the first numbers of the depths, one a curve, are written, and the numbers past them stay as they were. leaves is
 * the sum of 2^j and nodes that of 2^(j + 1) - 1; where a curve has no depth both are 0, and nothing is foretold: contour_band
 * may refuse with 7, or accept, as it does with small curves at a tolerance of 2, where no curve has a depth.
 * Refused: every number of the depths stays as it was.
 *
 * A call takes far fewer instructions than banding, and foretells more leaves than there are as a rule. To lend room for as
 * many as are foretold is also the fast way where degrees are 1 to 3: contour_band then need not count the leaves before it
 * writes their records, and takes some two thirds of the instructions. How many there are, contour_band says with a
 * records_length of 0, by its refusal 8, at the cost of a walk. */
struct contour_band_foretold contour_foretell(const int32_t *outline, size_t outline_length, int32_t tolerance, uint32_t m,
                                              int32_t *depths, size_t depths_length);

/* What is answered of the tightest band. */
struct contour_band_tightest {
    uint32_t refusal;   /* 0 where nothing is refused, else the number of the refusal */
    uint64_t spot;      /* the refusal's spot; 0 where nothing is refused */
    uint32_t tolerance; /* the least tolerance that fits, 2 to 1,048,576; 0 where none does or anything is refused */
};

/* Finds the least tolerance at which contour_band meets no refusal 7 and needs at most so many leaves.
 *
 * outline, m: as for contour_band.
 * leaves: how many leaves are taken, any number. CONTOUR_BAND_STATION_LEAVES_MAX is what the bench station takes.
 *
 * Accepted: with room for so many records lent, contour_band accepts at this tolerance and at every larger one, up to
 * CONTOUR_BAND_TOLERANCE_MAX, with no more leaves, and at none below. Where the tolerance is 0 it accepts at none: at
 * CONTOUR_BAND_TOLERANCE_MAX no outline meets 7, so there are more leaves there, and at every other tolerance.
 * Refused: 18, 6, 5, 2, 20, 3, 4 and 17, as in contour_band.
 *
 * The call walks the outline's curves at most 21 times, as contour_band does with a records_length of 0.
 * Stack: CONTOUR_BAND_STATION_STACK bytes are enough, whatever is given. */
struct contour_band_tightest contour_tightest(const int32_t *outline, size_t outline_length, uint32_t m, size_t leaves);

/* Exchanges one curve of an outline whose records are there, and gives the records and the report of the changed outline.
 *
 * outline, tolerance, m: as for contour_band.
 * number: which curve of the outline gives way, from 0.
 * curve: CONTOUR_BAND_CURVE numbers, the degree of the new curve and x and y of its points, in stage units, as they stand in an
 *     outline. Those past its degree are not read, and may be any numbers.
 * given: how many numbers the outline's records have, CONTOUR_BAND_RECORD(m) for each of its leaves.
 * records: at its front the records that contour_band wrote for the outline with this tolerance and m. What stands past them is
 *     not looked at.
 *
 * Accepted: the answer and the records are those of contour_band for the changed outline: the outline's numbers with those of
 * the new curve in the place of those of the old one. Records of other curves keep their numbers and only move. The numbers
 * past the new records stay as they were, old records included.
 * Refused: every number of the records stays as it was. First come the refusals of contour_band for the outline, 8 left out;
 * then 22; then 23, where one of the first given numbers is not that of the outline's records, or given is not their count, or
 * is above records_length; then the refusals of contour_band for the changed outline, whose indexes are those in the changed
 * list: a new degree moves the curves after it, and 17 may fall on the curve after the new one. records_length is what 8 goes
 * by, so the records may have to be lent with room for more leaves than the outline has.
 *
 * The call computes the outline's records anew, to compare them, and then those of the new curve alone.
 * Stack: CONTOUR_BAND_EXCHANGE_STACK bytes are enough, whatever is given. */
struct contour_band_answer contour_exchange(const int32_t *outline, size_t outline_length, int32_t tolerance, uint32_t m,
                                            size_t number, const int32_t curve[CONTOUR_BAND_CURVE], size_t given,
                                            int32_t *records, size_t records_length);

/* What judging answers. */
struct contour_band_judgement {
    uint32_t refusal; /* 0 where nothing is refused, else the number of the refusal, 9 to 11 or 18 */
    uint64_t spot;    /* the refusal's spot; 0 where nothing is refused */
    uint32_t on;      /* 1 where the point is on the band, else 0 */
    uint64_t leaf;    /* the number of the first record that holds the point, from 0; 0 unless it is on */
    uint64_t cover;   /* the lowest cover of that record that holds it, 0 to m - 1; 0 unless it is on */
};

/* Judges a point against a list of leaf records, which it only reads.
 *
 * leaves: records as contour_band writes them, one or more, in any order. To judge against a band give exactly the records
 *     written, without the rest of the list. A number is bad where a curve is not 0 to 4,095, a node not 1 to 511, a box
 *     number beyond the farthest, or a low above its high; the last is named by the low's index.
 * m: how many pieces each leaf has, 1 to 8. To judge against a band give the m of the banding.
 * x, y: the point, in sixteenths of a stage unit.
 *
 * A record has covers 0 to m - 1. Cover i is every point that lies, for some fraction s from 0 to 1, in the box
 * (1 - s) * box i + s * box i + 1. The point is on where some cover of some record holds it, edges included. The
 * first record of the list that holds it is named, and in it the lowest cover that does. Every call checks the whole list. */
struct contour_band_judgement contour_judge(const int32_t *leaves, size_t leaves_length, uint32_t m, int32_t x, int32_t y);

/* What judging a list of points answers, beside the numbers that it writes. */
struct contour_band_points {
    uint32_t refusal; /* 0 where the lists are accepted, else the number of the refusal: 18, 9, 10, 101 or 8 */
    uint64_t spot;    /* the refusal's spot; 0 where the lists are accepted */
    uint64_t points;  /* how many points there are; 0 where a list is refused */
};

/* Judges points against one list of leaf records, which is checked once: with many points this is far faster than a call of
 * contour_judge for each.
 *
 * leaves, m: as for contour_judge.
 * points: x and y of each point, in sixteenths of a stage unit; there may be none.
 * answers: where three numbers are written for each point, in the order of the points: 1, record and cover, as contour_judge
 *     names them, where the point is on; 0, 0, 0 where it is off; 11, spot, 0 where it is refused. A point that is refused
 *     does not end the call.
 *
 * Accepted: the first CONTOUR_BAND_ANSWER * points numbers of the answers are written, and the numbers past them stay as they
 * were.
 * Refused: every number of the answers stays as it was. */
struct contour_band_points contour_judge_points(const int32_t *leaves, size_t leaves_length, uint32_t m,
                                                const int32_t *points, size_t points_length, int64_t *answers,
                                                size_t answers_length);

/* What a quote answers. */
struct contour_band_quote {
    uint32_t refusal; /* 0 where the list is accepted, else the number of the refusal: 18, 9, 26 or 10 */
    uint64_t spot;    /* the refusal's spot; 0 where the list is accepted */
    uint64_t cents;   /* the total in cents; 0 where the list is refused */
};

/* Quotes a list of leaf records, as banding writes them.
 *
 * leaves, m: as for contour_judge, with at most CONTOUR_BAND_QUOTE_RECORDS_MAX records.
 *
 * Each curve number that has records costs 140 cents, with two of them included, and each further record of it 35. One eighth
 * of the sum is added, and the total is rounded to the cent, half a cent upwards. The records of a number are counted over the
 * whole list, wherever they stand, and a number without records costs nothing. */
struct contour_band_quote contour_quote(const int32_t *leaves, size_t leaves_length, uint32_t m);

/* What banding and judging answer together. */
struct contour_band_outcome {
    uint32_t refusal; /* 0 where nothing is refused, else the number of the refusal: one of banding, or 11 */
    uint64_t spot;    /* the refusal's spot; 0 where nothing is refused */
    uint64_t curves;  /* the report of banding, as in contour_band_answer; 0 where anything is refused */
    uint64_t leaves;
    uint64_t nodes;
    uint32_t on;    /* the judgement, as in contour_band_judgement; 0 where anything is refused */
    uint64_t leaf;
    uint64_t cover;
};

/* Puts a band round an outline, then judges a point against the records written and nothing else of the list.
 *
 * The parameters are those of contour_band and of contour_judge.
 *
 * Accepted: the report and the records are those of contour_band, the judgement is that of contour_judge.
 * Refused: every number of the records stays as it was, also where it is the point that is refused. */
struct contour_band_outcome contour_band_and_judge(const int32_t *outline, size_t outline_length, int32_t tolerance,
                                                   uint32_t m, int32_t *records, size_t records_length, int32_t x,
                                                   int32_t y);

/* A box: what lies from the lows to the highs, edges included, in sixteenths of a stage unit. */
struct contour_band_box {
    int32_t x_low;
    int32_t x_high;
    int32_t y_low;
    int32_t y_high;
};

/* What drawing answers. */
struct contour_band_drawing {
    uint32_t refusal;  /* 0 where the boxes are accepted, else the number of the refusal */
    uint64_t spot;     /* the refusal's spot; 0 where the boxes are accepted */
    uint64_t vertices; /* how many vertices there are, 1 to 8; 0 where the boxes are refused */
};

/* Draws the convex hull of two boxes, which is a cover where they are neighbours of a leaf.
 *
 * first, second: boxes. A number is bad where it is beyond the farthest, or is a low above its high; the last is named by the
 *     low. Places 0 to 3 are the numbers of first and 4 to 7 those of second, in the order of the struct.
 * vertices: where x and y of each vertex are written, counter-clockwise from the lowest, then leftmost. No three are in line.
 *     CONTOUR_BAND_VERTEX_ROOM numbers must be lent, however few vertices there are.
 *
 * Accepted: the first 2 * vertices numbers of the list are written, and the numbers past them stay as they were.
 * Refused: every number of the list stays as it was. */
struct contour_band_drawing contour_draw(struct contour_band_box first, struct contour_band_box second, int32_t *vertices,
                                         size_t vertices_length);

/* A box in stage units, in binary64. */
struct contour_band_units {
    uint32_t refusal; /* 0 where the box is accepted, else 12 */
    uint64_t spot;    /* the refusal's spot, 0 to 3; 0 where the box is accepted */
    double x_low;     /* the four numbers of the box; 0.0 where it is refused */
    double x_high;
    double y_low;
    double y_high;
};

/* Hands out a box in stage units: each number is exactly the sixteenth divided by 16. A zero is never negative.
 *
 * box: a number is bad as for contour_draw; places 0 to 3 are the numbers in the order of the struct. */
struct contour_band_units contour_box_units(struct contour_band_box box);

/* Which form a box has in the short form. */
enum contour_band_short_kind {
    CONTOUR_BAND_SHORT_REFUSED = 0, /* none: the box is refused */
    CONTOUR_BAND_SHORT_POINT = 1,   /* the box is a single point: both widths are 0 */
    CONTOUR_BAND_SHORT_MIDDLE = 2   /* any other box, also one of which one width is 0 */
};

/* A box in the drawing office's short form, in stage units, in binary64. */
struct contour_band_short {
    uint32_t refusal;   /* 0 where the box is accepted, else 12 */
    uint64_t spot;      /* the refusal's spot, 0 to 3; 0 where the box is accepted */
    uint32_t kind;      /* a number of enum contour_band_short_kind */
    double x;           /* the point, or the middle of the box; 0.0 where it is refused */
    double y;
    double half_width;  /* half of the width, in x; 0.0 of a point and where the box is refused */
    double half_height; /* half of the height, in y; 0.0 of a point and where the box is refused */
};

/* Hands out a box in the short form: as that point where it is a single point, else as its middle with two half widths. Each
 * number is exact, so the box can be regained from it. A zero is never negative.
 *
 * box: as for contour_box_units. */
struct contour_band_short contour_box_short(struct contour_band_box box);

/* The version of the library that is linked, to be compared with CONTOUR_BAND_VERSION_NUMBER. */
uint32_t contour_version(void);

/* A refusal in words: what is wrong, what would be right, and what the spot is. Also for 0, and for a number that no refusal
 * has. It is a function of this header alone, so that the library has numbers only. */
static inline const char *contour_refusal_text(uint32_t refusal) {
    switch (refusal) {
    case CONTOUR_BAND_ACCEPTED:
        return "nothing is refused";
    case CONTOUR_BAND_TOLERANCE:
        return "the tolerance is not 2 to 1048576 sixteenths of a stage unit";
    case CONTOUR_BAND_DEGREE:
        return "a degree is not 1 to 5; the spot is its index in the outline";
    case CONTOUR_BAND_CUT_SHORT:
        return "the outline ends inside a curve; the spot is the outline's length";
    case CONTOUR_BAND_COORDINATE:
        return "a coordinate is not -1048576 to 1048576; the spot is its index in the outline";
    case CONTOUR_BAND_TOO_MANY_CURVES:
        return "the outline has more than 4096 curves, or 64 at the bench station; the spot is the index of the "
               "degree of the first too many";
    case CONTOUR_BAND_EMPTY_OUTLINE:
        return "the outline has no curve";
    case CONTOUR_BAND_TOO_WIDE:
        return "a stretch of a curve is still wider than the tolerance after its last halving; the spot is 512 * "
               "curve + node";
    case CONTOUR_BAND_TOO_FEW_RECORDS:
        return "the list lent is too short; the spot is how many leaves, points or curves it must have room for";
    case CONTOUR_BAND_LEAVES_LENGTH:
        return "the leaf list is empty or ends inside a record, which has 6 + 4 * m numbers; the spot is the list's "
               "length";
    case CONTOUR_BAND_LEAVES_NUMBER:
        return "a number of the leaf list is bad: a curve is 0 to 4095, a node 1 to 511, a bound -536870912 to "
               "536870912, no low above its high; the spot is its index";
    case CONTOUR_BAND_POINT:
        return "a coordinate of the point is not -536870912 to 536870912; the spot is 0 for x and 1 for y";
    case CONTOUR_BAND_BOX_NUMBER:
        return "a number of the boxes is not -536870912 to 536870912, or a low is above its high; the spot is its "
               "place, 0 to 7";
    case CONTOUR_BAND_TOO_FEW_VERTICES:
        return "fewer than 16 numbers are lent for vertices; the spot is how many are";
    case CONTOUR_BAND_GAP:
        return "a curve does not begin where the curve before it ends; the spot is the index of its degree in the "
               "outline";
    case CONTOUR_BAND_PIECES:
        return "m, the number of pieces of a leaf, is not 1 to 8";
    case CONTOUR_BAND_TOO_MANY_LEAVES:
        return "the outline has more than 128 leaves, which the bench station does not take; the spot is how many "
               "it has";
    case CONTOUR_BAND_TOO_FEW_PIECES:
        return "a curve of degree 4 or 5 takes 3 to 8 pieces a leaf, and m is below 3; the spot is the index of its "
               "degree in the outline";
    case CONTOUR_BAND_SPLINE_LENGTH:
        return "a B-spline has x and y of 4 to 4099 points, which is an even count of numbers from 8 to 8198; the "
               "spot is the count given";
    case CONTOUR_BAND_SPLINE_COORDINATE:
        return "a coordinate of a B-spline's point is not -131072 to 131072; the spot is its index in the list";
    case CONTOUR_BAND_TOO_MANY_RECORDS:
        return "the leaf list of a quote has more than 1048576 records; the spot is the list's length";
    case CONTOUR_BAND_NOT_WHOLE:
        return "a coordinate is no whole number; the spot is its index in the outline";
    case CONTOUR_BAND_NO_SUCH_CURVE:
        return "the outline has no curve of this number; the spot is the number";
    case CONTOUR_BAND_OTHER_RECORDS:
        return "the records given are not the outline's, or their count passes the list; the spot is the first "
               "index that differs, or the least of the count, the list's length and the length of the outline's "
               "records";
    case CONTOUR_BAND_ODD_POINTS:
        return "the list of points has an odd count of numbers; the spot is the count";
    default:
        return "no refusal has this number";
    }
}

#ifdef __cplusplus
}
#endif

#endif
