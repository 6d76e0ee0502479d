/* A C caller of the header: bands curve A, in binary64 too, and B-splines, foretells leaves, finds tightest bands, exchanges curves, judges
 * points,
 * one by one and as a list, quotes leaves, draws two boxes, hands out boxes in binary64, and prints the answers, to be compared by
 * header.rs. */
#include "contour_band.h"

#include <math.h>
#include <stdio.h>

/* How many pieces a leaf has. */
#define M 3

static void print(struct contour_band_answer answer) {
    printf("%u %llu %llu %llu %llu\n", (unsigned)answer.refusal, (unsigned long long)answer.spot,
           (unsigned long long)answer.curves, (unsigned long long)answer.leaves, (unsigned long long)answer.nodes);
}

static void print_judgement(struct contour_band_judgement judgement) {
    printf("%u %llu %u %llu %llu\n", (unsigned)judgement.refusal, (unsigned long long)judgement.spot,
           (unsigned)judgement.on, (unsigned long long)judgement.leaf, (unsigned long long)judgement.cover);
}

static void print_outcome(struct contour_band_outcome outcome) {
    const struct contour_band_answer answer = {outcome.refusal, outcome.spot, outcome.curves, outcome.leaves, outcome.nodes};
    print(answer);
    printf("  %u %llu %llu\n", (unsigned)outcome.on, (unsigned long long)outcome.leaf,
           (unsigned long long)outcome.cover);
}

static void judge(const int32_t *leaves, size_t leaves_length) {
    print_judgement(contour_judge(leaves, leaves_length, M, 240, 363));
    print_judgement(contour_judge(leaves, leaves_length, M, 240, 364));
    print_judgement(contour_judge(leaves, leaves_length, M, 0, CONTOUR_BAND_FARTHEST));
    print_judgement(contour_judge(leaves, leaves_length, M, -CONTOUR_BAND_FARTHEST - 1, 0));
    print_judgement(contour_judge(leaves, leaves_length, M, 0, CONTOUR_BAND_FARTHEST + 1));
    print_judgement(contour_judge(leaves, leaves_length + 1, M, 240, 363));
    print_judgement(contour_judge(leaves + 1, leaves_length, M, 240, 363));
    print_judgement(contour_judge(leaves, leaves_length, CONTOUR_BAND_PIECES_MAX + 1, 240, 363));
}

/* Judges a list of points and prints the answer, and the list of answers with one number past it. */
static void judge_points(const int32_t *leaves, size_t leaves_length, uint32_t m, size_t points_length, size_t answers_length) {
    const int32_t points[8] = {240, 363, 240, 364, -CONTOUR_BAND_FARTHEST - 1, 0, 0, CONTOUR_BAND_FARTHEST + 1};
    int64_t answers[4 * CONTOUR_BAND_ANSWER + 1];
    for (int i = 0; i <= 4 * CONTOUR_BAND_ANSWER; i++) {
        answers[i] = -1;
    }
    const struct contour_band_points answer =
        contour_judge_points(leaves, leaves_length, m, points, points_length, answers, answers_length);
    printf("%u %llu %llu:", (unsigned)answer.refusal, (unsigned long long)answer.spot, (unsigned long long)answer.points);
    for (int i = 0; i <= 4 * CONTOUR_BAND_ANSWER; i++) {
        printf(" %lld", (long long)answers[i]);
    }
    printf("\n");
}

static void judge_lists(const int32_t *leaves, size_t leaves_length) {
    judge_points(leaves, leaves_length, M, 8, 12);
    judge_points(leaves, leaves_length, M, 2, 3);
    judge_points(leaves, leaves_length, M, 0, 0);
    judge_points(leaves, leaves_length, CONTOUR_BAND_PIECES_MAX + 1, 7, 8);
    judge_points(leaves, leaves_length + 1, M, 7, 8);
    judge_points(leaves + 1, leaves_length, M, 7, 8);
    judge_points(leaves, leaves_length, M, 7, 8);
    judge_points(leaves, leaves_length, M, 6, 8);
}

static void band_and_judge(const int32_t *outline, int32_t *records) {
    print_outcome(contour_band_and_judge(outline, 9, 43, M, records, CONTOUR_BAND_RECORD(M), 240, 363));
    print_outcome(contour_band_and_judge(outline, 9, 43, M, records, 2 * CONTOUR_BAND_RECORD(M), 300, 340));
    print_outcome(contour_band_and_judge(outline, 9, 43, M, records, 2 * CONTOUR_BAND_RECORD(M), 240, 371));
    print_outcome(contour_band_and_judge(outline, 9, 43, M, records, 2 * CONTOUR_BAND_RECORD(M), 0, CONTOUR_BAND_FARTHEST + 1));
    print_outcome(contour_band_and_judge(outline, 9, 43, 0, records, 2 * CONTOUR_BAND_RECORD(M), 240, 371));
}

/* Degrees 4 and 5, and the degree after them. */
static void higher(int32_t *records) {
    const int32_t quartic[11] = {4, 0, 0, 210, 30, 420, 40, 630, 30, 840, 0};
    const int32_t quintic[13] = {CONTOUR_BAND_DEGREE_MAX, 0, 0, 168, 40, 336, 60, 504, 60, 672, 40, 840, 0};
    const int32_t sextic[1] = {CONTOUR_BAND_DEGREE_MAX + 1};
    print(contour_band(quartic, 11, 55, M, records, 2 * CONTOUR_BAND_RECORD(M)));
    print(contour_band(quintic, 13, 95, M, records, 2 * CONTOUR_BAND_RECORD(M)));
    print(contour_band(quartic, 11, 55, M - 1, records, 2 * CONTOUR_BAND_RECORD(M)));
    print(contour_band(quintic, 12, 95, M - 1, records, 2 * CONTOUR_BAND_RECORD(M)));
    print(contour_band(quintic, 12, 95, M, records, 2 * CONTOUR_BAND_RECORD(M)));
    print(contour_band(sextic, 1, 44, M - 1, records, 2 * CONTOUR_BAND_RECORD(M)));
}

/* Curve A in binary64; a second line of whose numbers one is given; a degree that is none. */
static void binary64(int32_t *records) {
    const double outline[9] = {3.0, 0.0, -0.0, 10.0, 30.0, 20.0, 30.0, 30.0, 0.0};
    const double others[8] = {-0.0, 2000000.5, 1e300, NAN, -INFINITY, 9007199254740994.0, CONTOUR_BAND_COORDINATE_MAX + 1, 1.0};
    print(contour_binary64_band(outline, 9, 44, M, records, CONTOUR_BAND_RECORD(M)));
    for (int i = 0; i < CONTOUR_BAND_RECORD(M); i++) {
        printf(i < CONTOUR_BAND_RECORD(M) - 1 ? "%d " : "%d\n", (int)records[i]);
    }
    for (int i = 0; i < 8; i++) {
        const double lines[10] = {1.0, 5.0, 5.0, 0.0, 0.0, 1.0, others[i], 0.0, NAN, 0.0};
        print(contour_binary64_band(lines, i == 0 ? 9 : 10, 44, M, records, CONTOUR_BAND_RECORD(M)));
        print(contour_binary64_band(lines + 6, 1, 44, M, records, CONTOUR_BAND_RECORD(M)));
    }
    print(contour_binary64_band(outline, 9, 44, M, records, CONTOUR_BAND_RECORD(M) - 1));
    print(contour_binary64_band(outline, 0, 44, M, records, 0));
    print(contour_binary64_band(outline, 0, CONTOUR_BAND_TOLERANCE_MAX + 1, M, records, 0));
    print(contour_binary64_band(outline, 0, 1, CONTOUR_BAND_PIECES_MAX + 1, records, 0));
}

/* A box in stage units, and in the short form. */
static void hand_out(struct contour_band_box box) {
    const struct contour_band_units units = contour_box_units(box);
    printf("%u %llu %.17g %.17g %.17g %.17g\n", (unsigned)units.refusal, (unsigned long long)units.spot, units.x_low, units.x_high,
           units.y_low, units.y_high);
    const struct contour_band_short form = contour_box_short(box);
    const char *kind = form.kind == CONTOUR_BAND_SHORT_POINT    ? "point"
                       : form.kind == CONTOUR_BAND_SHORT_MIDDLE ? "middle"
                                                                : "refused";
    printf("%u %llu %s %.17g %.17g %.17g %.17g\n", (unsigned)form.refusal, (unsigned long long)form.spot, kind, form.x, form.y,
           form.half_width, form.half_height);
}

/* The B-spline of curve A's control points; its refusals; and splines of the most points and of one more. */
static void spline(int32_t *records) {
    const int32_t points[10] = {0, 0, 10, 30, 20, 30, 30, 0};
    const int32_t far[8] = {0, 0, 0, CONTOUR_BAND_SPLINE_COORDINATE_MIN - 1, 0, 0, 0, 0};
    print(contour_spline_band(points, 8, 9, M, records, CONTOUR_BAND_RECORD(M)));
    for (int i = 0; i < CONTOUR_BAND_RECORD(M); i++) {
        printf(i < CONTOUR_BAND_RECORD(M) - 1 ? "%d " : "%d\n", (int)records[i]);
    }
    /* The middle of the curve, and a point above it. */
    print_judgement(contour_judge(records, CONTOUR_BAND_RECORD(M), M, 240, 460));
    print_judgement(contour_judge(records, CONTOUR_BAND_RECORD(M), M, 240, 462));
    print(contour_spline_band(points, 6, 1, CONTOUR_BAND_PIECES_MAX + 1, records, CONTOUR_BAND_RECORD(M)));
    print(contour_spline_band(points, 6, 1, M, records, CONTOUR_BAND_RECORD(M)));
    print(contour_spline_band(points, CONTOUR_BAND_SPLINE_LENGTH_MIN - 2, 9, M, records, CONTOUR_BAND_RECORD(M)));
    print(contour_spline_band(points, CONTOUR_BAND_SPLINE_LENGTH_MIN + 1, 9, M, records, CONTOUR_BAND_RECORD(M)));
    print(contour_spline_band(far, 8, 9, M, records, CONTOUR_BAND_RECORD(M)));
    print(contour_spline_band(points, 8, 9, M, records, CONTOUR_BAND_RECORD(M) - 1));
    static int32_t many[CONTOUR_BAND_SPLINE_LENGTH_MAX + 2], room[CONTOUR_BAND_RECORD(M) * CONTOUR_BAND_CURVES_MAX];
    print(contour_spline_band(many, CONTOUR_BAND_SPLINE_LENGTH_MAX, 2, M, room, sizeof room / sizeof *room));
    print(contour_spline_band(many, CONTOUR_BAND_SPLINE_LENGTH_MAX + 2, 2, M, room, sizeof room / sizeof *room));
}

/* Curve A and its chord, with room for so many depths. */
static void foretell(int32_t tolerance, size_t length) {
    const int32_t bow[14] = {3, 0, 0, 10, 30, 20, 30, 30, 0, 1, 30, 0, 0, 0};
    int32_t depths[3] = {7, 7, 7};
    struct contour_band_foretold told = contour_foretell(bow, 14, tolerance, M, depths, length);
    printf("%u %llu %llu %llu", (unsigned)told.refusal, (unsigned long long)told.spot, (unsigned long long)told.leaves,
           (unsigned long long)told.nodes);
    printf(" %d %d %d\n", (int)depths[0], (int)depths[1], (int)depths[2]);
}

/* Curve A and its chord, or so many numbers of them. */
static void tightest(size_t length, uint32_t m, size_t leaves) {
    const int32_t bow[14] = {3, 0, 0, 10, 30, 20, 30, 30, 0, 1, 30, 0, 0, 0};
    struct contour_band_tightest found = contour_tightest(bow, length, m, leaves);
    printf("%u %llu %u\n", (unsigned)found.refusal, (unsigned long long)found.spot, (unsigned)found.tolerance);
}

/* Exchanges a curve of curve A and its chord, in a list of so many numbers, their records in front; the first and the last number
 * of each record are printed, and what stands behind the records where there is room. */
static void exchange(size_t number, const int32_t *curve, size_t given, size_t length) {
    const int32_t bow[14] = {3, 0, 0, 10, 30, 20, 30, 30, 0, 1, 30, 0, 0, 0};
    int32_t records[3 * CONTOUR_BAND_RECORD(M) + 1];
    for (int i = 0; i <= 3 * CONTOUR_BAND_RECORD(M); i++) {
        records[i] = -1;
    }
    contour_band(bow, 14, 44, M, records, 2 * CONTOUR_BAND_RECORD(M));
    print(contour_exchange(bow, 14, 44, M, number, curve, given, records, length));
    for (int i = 0; i < 3; i++) {
        printf("  %d %d", (int)records[i * CONTOUR_BAND_RECORD(M)], (int)records[(i + 1) * CONTOUR_BAND_RECORD(M) - 1]);
    }
    printf("  %d\n", (int)records[3 * CONTOUR_BAND_RECORD(M)]);
}

/* A line for curve A, and an arch twice as high, which has two leaves; then the refusals. */
static void exchanges(void) {
    const int32_t line[CONTOUR_BAND_CURVE] = {1, 0, 0, 30, 0, INT32_MIN, INT32_MIN, 7, 7, 7, 7, 7, 7};
    const int32_t high[CONTOUR_BAND_CURVE] = {3, 0, 0, 10, 60, 20, 60, 30, 0, INT32_MAX, INT32_MAX, 7, 7};
    const int32_t apart[CONTOUR_BAND_CURVE] = {1, 0, 0, 30, 1};
    const int32_t sextic[CONTOUR_BAND_CURVE] = {CONTOUR_BAND_DEGREE_MAX + 1};
    const size_t own = 2 * CONTOUR_BAND_RECORD(M), room = 3 * CONTOUR_BAND_RECORD(M);
    exchange(0, line, own, own);
    exchange(0, high, own, room + 1);
    exchange(0, high, own, room - 1);
    exchange(2, high, own, room);
    exchange(SIZE_MAX, high, own, room);
    exchange(0, high, own - 1, room);
    exchange(0, high, SIZE_MAX, room);
    exchange(0, high, own, own - 1);
    exchange(0, apart, own, room);
    exchange(1, sextic, own, room);
}

/* Quotes so many numbers of a list, as records of m pieces. */
static void quote(const int32_t *leaves, size_t leaves_length, uint32_t m) {
    struct contour_band_quote quote = contour_quote(leaves, leaves_length, m);
    printf("%u %llu %llu\n", (unsigned)quote.refusal, (unsigned long long)quote.spot, (unsigned long long)quote.cents);
}

/* Curve A and its chord, at two tolerances; the refusals, of which 26 looks at no number. */
static void quotes(void) {
    const int32_t bow[14] = {3, 0, 0, 10, 30, 20, 30, 30, 0, 1, 30, 0, 0, 0};
    int32_t leaves[5 * CONTOUR_BAND_RECORD(M)];
    contour_band(bow, 14, 44, M, leaves, 2 * CONTOUR_BAND_RECORD(M));
    quote(leaves, CONTOUR_BAND_RECORD(M), M);
    quote(leaves, 2 * CONTOUR_BAND_RECORD(M), M);
    contour_band(bow, 14, 8, M, leaves, 5 * CONTOUR_BAND_RECORD(M));
    quote(leaves, 5 * CONTOUR_BAND_RECORD(M), M);
    quote(leaves, 0, CONTOUR_BAND_PIECES_MAX + 1);
    quote(leaves, 0, M);
    static int32_t many[CONTOUR_BAND_RECORD(1) * (CONTOUR_BAND_QUOTE_RECORDS_MAX + 1)];
    quote(many, CONTOUR_BAND_RECORD(1) * CONTOUR_BAND_QUOTE_RECORDS_MAX, 1);
    quote(many, CONTOUR_BAND_RECORD(1) * (CONTOUR_BAND_QUOTE_RECORDS_MAX + 1), 1);
}

static void draw(struct contour_band_box first, struct contour_band_box second, size_t length) {
    int32_t vertices[CONTOUR_BAND_VERTEX_ROOM] = {0};
    struct contour_band_drawing drawing = contour_draw(first, second, vertices, length);
    printf("%u %llu %llu", (unsigned)drawing.refusal, (unsigned long long)drawing.spot, (unsigned long long)drawing.vertices);
    for (int i = 0; i < CONTOUR_BAND_VERTEX_ROOM; i++) {
        printf(" %d", (int)vertices[i]);
    }
    printf("\n");
}

/* A bow that ends where it begins and has four leaves, so many times. */
static void station(size_t bows) {
    static int32_t outline[33 * 7], records[CONTOUR_BAND_STATION_ROOM(M)];
    const int32_t bow[7] = {2, 0, 0, 0, 800, 0, 0};
    for (size_t i = 0; i < 7 * bows; i++) {
        outline[i] = bow[i % 7];
    }
    print(contour_station_band(outline, 7 * bows, 100, M, records, CONTOUR_BAND_STATION_ROOM(M)));
    print(contour_station_band(outline, 7 * bows, 100, M, records, CONTOUR_BAND_STATION_ROOM(M) - 1));
    print(contour_band(outline, 7 * bows, 100, M, records, CONTOUR_BAND_STATION_ROOM(M)));
}

int main(void) {
    const int32_t outline[9] = {3, 0, 0, 10, 30, 20, 30, 30, 0};
    int32_t records[2 * CONTOUR_BAND_RECORD(M)] = {0};
    records[CONTOUR_BAND_RECORD(M)] = -1;
    print(contour_band(outline, 9, 44, M, records, CONTOUR_BAND_RECORD(M) + 1));
    for (int i = 0; i <= CONTOUR_BAND_RECORD(M); i++) {
        printf(i < CONTOUR_BAND_RECORD(M) ? "%d " : "%d\n", (int)records[i]);
    }
    print(contour_band(outline, 9, CONTOUR_BAND_TOLERANCE_MIN - 1, M, records, CONTOUR_BAND_RECORD(M)));
    print(contour_band(outline, 8, 44, M, records, CONTOUR_BAND_RECORD(M)));
    print(contour_band(outline, 9, 43, M, records, CONTOUR_BAND_RECORD(M)));
    const int32_t apart[10] = {1, 0, 0, 0, 1, 1, 0, 0, 0, 1};
    print(contour_band(apart, 10, 44, M, records, CONTOUR_BAND_RECORD(M)));
    print(contour_band(outline, 9, 44, CONTOUR_BAND_PIECES_MIN - 1, records, CONTOUR_BAND_RECORD(M)));
    print(contour_band(outline, 9, 44, CONTOUR_BAND_PIECES_MAX + 1, records, CONTOUR_BAND_RECORD(M)));
    /* A negative number becomes a large one. */
    const int negative = -3;
    print(contour_band(outline, 9, 44, negative, records, CONTOUR_BAND_RECORD(M)));
    judge(records, CONTOUR_BAND_RECORD(M));
    judge_lists(records, CONTOUR_BAND_RECORD(M));
    band_and_judge(outline, records);
    higher(records);

    for (uint32_t m = CONTOUR_BAND_PIECES_MIN; m <= CONTOUR_BAND_PIECES_MAX; m++) {
        int32_t whole[CONTOUR_BAND_RECORD(CONTOUR_BAND_PIECES_MAX)] = {0};
        print(contour_band(outline, 9, 360, m, whole, CONTOUR_BAND_RECORD(m)));
        print_judgement(contour_judge(whole, CONTOUR_BAND_RECORD(m), m, 480, 0));
    }

    station(CONTOUR_BAND_STATION_LEAVES_MAX / 4);
    station(CONTOUR_BAND_STATION_LEAVES_MAX / 4 + 1);
    int32_t lines[5 * (CONTOUR_BAND_STATION_CURVES_MAX + 1)] = {0};
    for (int i = 0; i <= CONTOUR_BAND_STATION_CURVES_MAX; i++) {
        lines[5 * i] = 1;
    }
    print(contour_station_band(lines, 5 * CONTOUR_BAND_STATION_CURVES_MAX, 2, M, records, 0));
    print(contour_station_band(lines, 5 * CONTOUR_BAND_STATION_CURVES_MAX + 1, 2, M, records, 0));

    spline(records);

    foretell(44, 3);
    foretell(44, 2);
    foretell(44, 1);
    foretell(CONTOUR_BAND_TOLERANCE_MIN, 3);
    foretell(CONTOUR_BAND_TOLERANCE_MAX, 3);
    foretell(CONTOUR_BAND_TOLERANCE_MAX + 1, 3);

    tightest(14, M, 0);
    tightest(14, M, 1);
    tightest(14, M, 2);
    tightest(14, M, 3);
    tightest(14, M, CONTOUR_BAND_STATION_LEAVES_MAX);
    tightest(14, M, SIZE_MAX);
    tightest(13, M, 2);
    tightest(0, M, 2);
    tightest(0, CONTOUR_BAND_PIECES_MAX + 1, 2);
    exchanges();
    quotes();

    const struct contour_band_box near = {0, 1, 0, 1}, far = {3, 4, 3, 4};
    const struct contour_band_box beyond = {0, 0, 0, CONTOUR_BAND_FARTHEST + 1};
    draw(near, far, CONTOUR_BAND_VERTEX_ROOM);
    draw(near, far, CONTOUR_BAND_VERTEX_ROOM - 1);
    draw(near, beyond, 0);

    binary64(records);
    enum { FAR = CONTOUR_BAND_FARTHEST };
    const struct contour_band_box boxes[6] = {{160, 160, 319, 363}, {160, 160, -319, -319}, {-FAR, FAR, FAR - 1, FAR},
                                              {0, 0, 0, 0},         {0, -1, 0, 0},          {0, 0, 0, FAR + 1}};
    for (int i = 0; i < 6; i++) {
        hand_out(boxes[i]);
    }
    return 0;
}
