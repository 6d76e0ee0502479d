/* Every function of the header with NULL for a list of no numbers: each line is the function, a refusal and its spot. */
#include "contour_band.h"

#include <stdio.h>

#define M 3

/* Prints the function that is called, and the refusal and the spot of its answer. */
#define PRINT(name, ...)                                                                                                     \
    printf("%s %u %llu\n", #name, (unsigned)name(__VA_ARGS__).refusal, (unsigned long long)name(__VA_ARGS__).spot)

int main(void) {
    const int32_t outline[9] = {3, 0, 0, 10, 30, 20, 30, 30, 0};
    const int32_t spline[8] = {0, 0, 10, 30, 20, 30, 30, 0};
    const int32_t leaves[CONTOUR_BAND_RECORD(M)] = {0, 1};
    const int32_t curve[CONTOUR_BAND_CURVE] = {3, 0, 0, 10, 60, 20, 60, 30, 0};
    const int32_t point[2] = {0, 0};
    const struct contour_band_box box = {0, 0, 0, 0};
    PRINT(contour_band, NULL, 0, 44, M, NULL, 0);
    PRINT(contour_band, outline, 9, 44, M, NULL, 0);
    PRINT(contour_station_band, NULL, 0, 44, M, NULL, 0);
    PRINT(contour_station_band, outline, 9, 44, M, NULL, 0);
    PRINT(contour_spline_band, NULL, 0, 44, M, NULL, 0);
    PRINT(contour_spline_band, spline, 8, 44, M, NULL, 0);
    PRINT(contour_binary64_band, NULL, 0, 44, M, NULL, 0);
    PRINT(contour_foretell, NULL, 0, 44, M, NULL, 0);
    PRINT(contour_foretell, outline, 9, 44, M, NULL, 0);
    PRINT(contour_tightest, NULL, 0, M, 1);
    PRINT(contour_exchange, NULL, 0, 44, M, 0, curve, 0, NULL, 0);
    PRINT(contour_exchange, outline, 9, 44, M, 0, curve, 0, NULL, 0);
    PRINT(contour_judge, NULL, 0, M, 0, 0);
    PRINT(contour_judge_points, NULL, 0, M, NULL, 0, NULL, 0);
    PRINT(contour_judge_points, NULL, 0, M, point, 2, NULL, 0);
    PRINT(contour_judge_points, leaves, CONTOUR_BAND_RECORD(M), M, point, 2, NULL, 0);
    PRINT(contour_judge_points, leaves, CONTOUR_BAND_RECORD(M), M, NULL, 0, NULL, 0);
    PRINT(contour_quote, NULL, 0, M);
    PRINT(contour_band_and_judge, NULL, 0, 44, M, NULL, 0, 0, 0);
    PRINT(contour_band_and_judge, outline, 9, 44, M, NULL, 0, 0, 0);
    PRINT(contour_draw, box, box, NULL, 0);
    PRINT(contour_box_units, box);
    PRINT(contour_box_short, box);
    return 0;
}
