/* How much stack contour_station_band, contour_binary64_band, contour_spline_band, contour_tightest, contour_exchange, contour_judge_points and
 * contour_quote take: each call runs on a stack of its own, filled with one byte beforehand, and what it did not touch is counted
 * from the far end. Prints the bytes that the header promises, then a line for each call, the station's with its degree, to be
 * compared by header.rs. */
#define _XOPEN_SOURCE 700
#include "contour_band.h"

#include <stdio.h>
#include <string.h>
#include <ucontext.h>

#define SIZE (64 * 1024)
#define MARK 0xA5

static unsigned char stack[SIZE];
static ucontext_t caller, callee;

/* What banding is given: an outline, or the points of a B-spline. */
static int32_t outline[CONTOUR_BAND_SPLINE_LENGTH_MAX + 2], records[CONTOUR_BAND_STATION_ROOM(CONTOUR_BAND_PIECES_MAX)];
static size_t outline_length, records_length;
static int32_t tolerance;
static uint32_t m;

/* What an exchange is given, with an outline of three curves: the middle one gives way. */
static int32_t new_curve[CONTOUR_BAND_CURVE], room[3 * 256 * CONTOUR_BAND_RECORD(CONTOUR_BAND_PIECES_MAX)];
static size_t given;

/* What judging is given, with m: one record more than there are runs. */
static int32_t leaves[2049 * CONTOUR_BAND_RECORD(CONTOUR_BAND_PIECES_MAX)];
static const int32_t points[12] = {0, 0, 3, 1, 2049, 1, CONTOUR_BAND_FARTHEST, 0, CONTOUR_BAND_FARTHEST + 1, 0,
                                   0, CONTOUR_BAND_FARTHEST + 1};
static size_t leaves_length, points_length;
static int64_t answers[6 * CONTOUR_BAND_ANSWER];

static void nothing(void) {}

static void station(void) { contour_station_band(outline, outline_length, tolerance, m, records, records_length); }

/* The outline in binary64, with so many leaves as the station takes. */
static double numbers[66 * (3 + 2 * CONTOUR_BAND_DEGREE_MAX)];

static void binary64(void) { contour_binary64_band(numbers, outline_length, tolerance, m, records, records_length); }

static void spline(void) { contour_spline_band(outline, outline_length, tolerance, m, records, records_length); }

/* With as many leaves as there are numbers to lend. */
static void tightest(void) { contour_tightest(outline, outline_length, m, records_length); }

static void exchange(void) {
    contour_exchange(outline, outline_length, tolerance, m, 1, new_curve, given, room, sizeof room / sizeof *room);
}

static void judge_points(void) {
    contour_judge_points(leaves, leaves_length, m, points, points_length, answers, sizeof answers / sizeof *answers);
}

static void quote(void) { contour_quote(leaves, leaves_length, m); }

/* The bytes of the stack that are touched by a call. */
static int touched(void (*run)(void)) {
    memset(stack, MARK, SIZE);
    getcontext(&callee);
    callee.uc_stack.ss_sp = stack;
    callee.uc_stack.ss_size = SIZE;
    callee.uc_link = &caller;
    makecontext(&callee, run, 0);
    swapcontext(&caller, &callee);
    int untouched = 0;
    while (untouched < SIZE && stack[untouched] == MARK) {
        untouched++;
    }
    return SIZE - untouched;
}

/* So many curves of a degree, each from (0 0) and back, with the other points so far away. */
static void curves(int count, int degree, int32_t far) {
    outline_length = 0;
    for (int i = 0; i < count; i++) {
        outline[outline_length++] = degree;
        for (int point = 0; point <= degree; point++) {
            outline[outline_length++] = 0;
            outline[outline_length++] = point == 0 || point == degree ? 0 : far;
        }
    }
}

/* So many points of a B-spline, by turns at 0 and so far away. */
static void zigzag(size_t count, int32_t far) {
    outline_length = 2 * count;
    for (size_t i = 0; i < outline_length; i++) {
        outline[i] = i / 2 % 2 ? far : 0;
    }
}

/* So many records side by side, one wide and one high each. */
static void squares(int count) {
    leaves_length = 0;
    for (int i = 0; i < count; i++) {
        leaves[leaves_length++] = 0;
        leaves[leaves_length++] = 1;
        for (uint32_t end = 0; end <= m; end++) {
            leaves[leaves_length++] = i;
            leaves[leaves_length++] = i + 1;
            leaves[leaves_length++] = 0;
            leaves[leaves_length++] = 1;
        }
    }
}

static void measure_station(void) {
    const int32_t far[] = {0, 1, 800, CONTOUR_BAND_COORDINATE_MAX};
    const int32_t tolerances[] = {1, 2, 3, 100, CONTOUR_BAND_TOLERANCE_MAX};
    for (m = 0; m <= CONTOUR_BAND_PIECES_MAX + 1; m++) {
        for (int count = 0; count <= 66; count += count < 4 ? 1 : 31) {
            for (int degree = 1; degree <= CONTOUR_BAND_DEGREE_MAX; degree++) {
                for (int i = 0; i < 4 * 5 * 2; i++) {
                    curves(count, degree, far[i / 10]);
                    tolerance = tolerances[i % 10 / 2];
                    records_length = i % 2 ? sizeof records / sizeof *records : 0;
                    printf("station %d %d\n", degree, touched(station) - touched(nothing));
                    for (size_t j = 0; j < outline_length; j++) {
                        numbers[j] = outline[j];
                    }
                    printf("binary64 %d\n", touched(binary64) - touched(nothing));
                    if (i % 10 < 2) {
                        printf("tightest %d\n", touched(tightest) - touched(nothing));
                    }
                }
            }
        }
    }
}

/* B-splines of too few points, of some, and of too many. */
static void measure_splines(void) {
    const int32_t far[] = {0, 1, 800, CONTOUR_BAND_SPLINE_COORDINATE_MAX, CONTOUR_BAND_SPLINE_COORDINATE_MAX + 1};
    const int32_t tolerances[] = {1, 2, 3, 100, CONTOUR_BAND_TOLERANCE_MAX};
    const size_t counts[] = {0, 3, 4, 5, 66, CONTOUR_BAND_SPLINE_LENGTH_MAX / 2, CONTOUR_BAND_SPLINE_LENGTH_MAX / 2 + 1};
    for (m = 0; m <= CONTOUR_BAND_PIECES_MAX + 1; m++) {
        for (int i = 0; i < 7 * 5 * 5; i++) {
            zigzag(counts[i / 25], far[i / 5 % 5]);
            tolerance = tolerances[i % 5];
            records_length = i % 2 ? sizeof records / sizeof *records : 0;
            printf("spline %d\n", touched(spline) - touched(nothing));
        }
    }
}

/* Three curves of a degree, the middle one exchanged for one of each degree, with its records, and with one number too few. */
static void measure_exchanges(void) {
    const int32_t far[] = {0, 1, 800, CONTOUR_BAND_COORDINATE_MAX};
    const int32_t tolerances[] = {1, 3, 100, CONTOUR_BAND_TOLERANCE_MAX};
    for (m = CONTOUR_BAND_PIECES_MIN; m <= CONTOUR_BAND_PIECES_MAX; m++) {
        for (int i = 0; i < 5 * 5 * 4 * 4 * 4; i++) {
            const int degree = 1 + i / 5 % 5;
            curves(1, degree, far[i / 25 % 4]);
            memcpy(new_curve, outline, outline_length * sizeof *outline);
            curves(3, 1 + i % 5, far[i / 100 % 4]);
            tolerance = tolerances[i / 400];
            const struct contour_band_answer band =
                contour_band(outline, outline_length, tolerance, m, room, sizeof room / sizeof *room);
            given = CONTOUR_BAND_RECORD(m) * band.leaves;
            printf("exchange %d\n", touched(exchange) - touched(nothing));
            contour_band(outline, outline_length, tolerance, m, room, sizeof room / sizeof *room);
            given--;
            printf("exchange %d\n", touched(exchange) - touched(nothing));
        }
    }
}

static void measure_points(void) {
    const int counts[] = {0, 1, 2, 64, 65, 2048, 2049};
    for (m = CONTOUR_BAND_PIECES_MIN; m <= CONTOUR_BAND_PIECES_MAX; m++) {
        for (int i = 0; i < 7; i++) {
            squares(counts[i]);
            for (points_length = 0; points_length <= 12; points_length++) {
                printf("points %d\n", touched(judge_points) - touched(nothing));
            }
        }
    }
}

/* Lists that are refused, and accepted ones of few records and many. */
static void measure_quotes(void) {
    const int counts[] = {0, 1, 2, 3, 2049};
    for (m = CONTOUR_BAND_PIECES_MIN; m <= CONTOUR_BAND_PIECES_MAX; m++) {
        for (int i = 0; i < 5; i++) {
            squares(counts[i]);
            printf("quote %d\n", touched(quote) - touched(nothing));
        }
    }
}

int main(void) {
    printf("promised %d %d %d %d\n", CONTOUR_BAND_STATION_STACK, CONTOUR_BAND_POINTS_STACK, CONTOUR_BAND_QUOTE_STACK,
           CONTOUR_BAND_EXCHANGE_STACK);
    /* A program's first call of a function may be the loader's too. */
    m = 1;
    tolerance = 100;
    curves(1, 3, 800);
    touched(station);
    touched(binary64);
    touched(spline);
    touched(tightest);
    touched(exchange);
    touched(judge_points);
    touched(quote);
    measure_station();
    measure_splines();
    measure_exchanges();
    measure_points();
    measure_quotes();
    return 0;
}
