/* Reads an outline and measured points from two text files, bands the outline, judges every point and prints the leaves, the
 * judgements and a summary, as the command `contour inspect OUTLINE POINTS` does. Build and run it at the root of the
 * repository by
 *
 *     bash tools/archive
 *     cc -std=c99 -Iinclude examples/inspect.c target/staticlib/libcontour.a -o target/inspect
 *     target/inspect examples/outline.txt examples/points.txt
 *
 * The outline file has a line (tolerance 44), then a line for each curve with its 2 to 6 control points in stage units, as in
 * (curve (0 0) (10 30) (20 30) (30 0)), or one line (spline (0 0) (10 30) (20 30) (30 0)) with the points of a uniform cubic
 * B-spline. The points file has a line (point (240 363)) for each point. Tolerance and points are in sixteenths of a stage
 * unit. Spaces are single; numbers are decimal, of 32 bits, with no leading zero and no plus. A line ends in a line feed, or in
 * a carriage return and a line feed; the last needs no end.
 *
 * Both files are read before anything is printed. The exit status is 0 where every point is on, 1 where one is off, and 2 where
 * something is refused or fails. */
#include "contour_band.h"

#include <errno.h>
#include <inttypes.h>
#include <signal.h>
#include <stdarg.h>
#include <stdio.h>
#include <stdlib.h>
#include <string.h>

/* How many straight pieces a leaf has, 1 to 8. */
#define M 3

/* The most bytes that a file may have. */
#define MOST_BYTES ((size_t)1 << 28)

/* A list of numbers that grows. */
struct list {
    int32_t *numbers;
    size_t length, room;
};

/* A part of a text, which may have any bytes. */
struct text {
    const char *at, *end;
};

/* All bytes of a file. */
struct bytes {
    char *first;
    size_t length, room;
};

/* What an outline file has. */
struct drawing {
    int32_t tolerance;
    int spline;          /* whether the numbers are a spline's points, and not curves */
    struct list numbers; /* as the engine takes them */
};

/* Says what is wrong, and ends. */
static void fail(const char *format, ...) {
    va_list arguments;
    va_start(arguments, format);
    vfprintf(stderr, format, arguments);
    va_end(arguments);
    fputc('\n', stderr);
    exit(2);
}

/* Room for so many bytes, with what stands in the room there was. */
static void *larger(void *old, size_t bytes) {
    void *room = realloc(old, bytes);
    if (room == NULL) {
        fail("there is no memory for %zu bytes", bytes);
    }
    return room;
}

static void push(struct list *list, int32_t number) {
    if (list->length == list->room) {
        list->room = 2 * list->room + 64;
        list->numbers = larger(list->numbers, list->room * sizeof *list->numbers);
    }
    list->numbers[list->length++] = number;
}

static struct bytes read_file(const char *file) {
    struct bytes bytes = {NULL, 0, 0};
    size_t got;
    FILE *stream = fopen(file, "rb");
    if (stream == NULL) {
        fail("%s: %s", file, strerror(errno));
    }
    do {
        bytes.room = 2 * bytes.room + 65536;
        bytes.first = larger(bytes.first, bytes.room);
        got = fread(bytes.first + bytes.length, 1, bytes.room - bytes.length, stream);
        bytes.length += got;
    } while (got > 0 && bytes.length <= MOST_BYTES);
    if (ferror(stream)) {
        fail("%s: %s", file, strerror(errno));
    }
    if (bytes.length > MOST_BYTES) {
        fail("%s: it has more than %zu bytes", file, MOST_BYTES);
    }
    fclose(stream);
    return bytes;
}

/* Takes the next line off a text, without its end. Whether there is one. */
static int next_line(struct text *text, struct text *line) {
    if (text->at == text->end) {
        return 0;
    }
    const char *feed = memchr(text->at, '\n', (size_t)(text->end - text->at));
    *line = (struct text){text->at, feed == NULL ? text->end : feed};
    text->at = feed == NULL ? text->end : feed + 1;
    if (feed != NULL && line->end > line->at && line->end[-1] == '\r') {
        line->end--;
    }
    return 1;
}

/* Takes a word off the front of a line. Whether it stood there. */
static int word(struct text *line, const char *word) {
    const size_t length = strlen(word);
    if ((size_t)(line->end - line->at) < length || memcmp(line->at, word, length) != 0) {
        return 0;
    }
    line->at += length;
    return 1;
}

/* Takes a 32-bit number off the front of a line. Whether one stood there: with no plus, no leading zero, and not -0. */
static int number(struct text *line, int32_t *value) {
    const int negative = word(line, "-");
    const char *digits = line->at;
    const int64_t most = (int64_t)INT32_MAX + negative;
    int64_t size = 0;
    for (; line->at < line->end && *line->at >= '0' && *line->at <= '9'; line->at++) {
        size = size > most ? size : 10 * size + (*line->at - '0');
    }
    if (line->at == digits || size > most || (*digits == '0' && (negative || line->at - digits > 1))) {
        return 0;
    }
    *value = (int32_t)(negative ? -size : size);
    return 1;
}

/* Takes " (x y)" off the front of a line. Whether it stood there. */
static int point(struct text *line, int32_t *x, int32_t *y) {
    return word(line, " (") && number(line, x) && word(line, " ") && number(line, y) && word(line, ")");
}

/* Whether what is left of a line is its last bracket. */
static int closes(struct text line) { return line.end - line.at == 1 && *line.at == ')'; }

/* Adds the points of a line "(form (x y) (x y) ..)" to a list. How many there are; 0 where the line is another. */
static size_t points(struct text line, const char *form, struct list *list) {
    const size_t length = list->length;
    int32_t x, y;
    if (!word(&line, "(") || !word(&line, form)) {
        return 0;
    }
    while (!closes(line)) {
        if (!point(&line, &x, &y)) {
            list->length = length;
            return 0;
        }
        push(list, x);
        push(list, y);
    }
    return (list->length - length) / 2;
}

/* Adds the curve of a line to a list: its degree, then its points. Whether the line is a curve of 2 to 6 points. */
static int curve(struct text line, struct list *list) {
    const size_t degree = list->length;
    push(list, 0);
    const size_t count = points(line, "curve", list);
    list->numbers[degree] = (int32_t)count - 1;
    return 2 <= count && count <= 6;
}

static struct drawing read_outline(const char *file) {
    struct drawing drawing = {0, 0, {NULL, 0, 0}};
    const struct bytes bytes = read_file(file);
    struct text text = {bytes.first, bytes.first + bytes.length}, line;
    if (!next_line(&text, &line) || !word(&line, "(tolerance ") || !number(&line, &drawing.tolerance) || !closes(line)) {
        fail("%s, line 1: (tolerance T) is expected", file);
    }
    for (size_t count = 2; next_line(&text, &line); count++) {
        if (drawing.spline) {
            fail("%s, line %zu: a spline stands alone", file, count);
        }
        drawing.spline = count == 2 && points(line, "spline", &drawing.numbers) > 0;
        if (!drawing.spline && !curve(line, &drawing.numbers)) {
            fail("%s, line %zu: (curve (x y) (x y) ..) of 2 to 6 points%s is expected", file, count,
                 count == 2 ? " or (spline (x y) ..)" : "");
        }
    }
    free(bytes.first);
    return drawing;
}

static struct list read_points(const char *file) {
    struct list list = {NULL, 0, 0};
    const struct bytes bytes = read_file(file);
    struct text text = {bytes.first, bytes.first + bytes.length}, line;
    for (size_t count = 1; next_line(&text, &line); count++) {
        if (points(line, "point", &list) != 1) {
            fail("%s, line %zu: (point (x y)) is expected", file, count);
        }
    }
    free(bytes.first);
    return list;
}

/* Bands what is drawn, with so many numbers lent. */
static struct contour_band_answer band(const struct drawing *drawing, int32_t *records, size_t length) {
    const struct list *list = &drawing->numbers;
    return drawing->spline ? contour_spline_band(list->numbers, list->length, drawing->tolerance, M, records, length)
                           : contour_band(list->numbers, list->length, drawing->tolerance, M, records, length);
}

/* The line of the file that a refusal of banding is about. */
static size_t line_of(const struct drawing *drawing, uint32_t refusal, uint64_t spot) {
    size_t line = 1;
    if (refusal == CONTOUR_BAND_TOLERANCE) {
        return 1;
    }
    if (drawing->spline) {
        return 2;
    }
    if (refusal == CONTOUR_BAND_TOO_WIDE) {
        return 2 + (size_t)spot / 512;
    }
    for (size_t at = 0; at <= spot; at += 3 + 2 * (size_t)drawing->numbers.numbers[at]) {
        line++;
    }
    return line;
}

/* Says why banding refuses a file, and ends. */
static void refused(const char *file, const struct drawing *drawing, struct contour_band_answer answer) {
    const char *text = contour_refusal_text(answer.refusal);
    if (answer.refusal == CONTOUR_BAND_EMPTY_OUTLINE) {
        fail("%s: refused %" PRIu32 " %" PRIu64 ": %s", file, answer.refusal, answer.spot, text);
    }
    fail("%s, line %zu: refused %" PRIu32 " %" PRIu64 ": %s", file, line_of(drawing, answer.refusal, answer.spot),
         answer.refusal, answer.spot, text);
}

/* Bands an outline file: a list of no numbers asks how many leaves there are, and then there is room for just so many. */
static int32_t *banded(const char *file, const struct drawing *drawing, struct contour_band_answer *answer) {
    *answer = band(drawing, NULL, 0);
    if (answer->refusal != CONTOUR_BAND_TOO_FEW_RECORDS) {
        refused(file, drawing, *answer);
    }
    const size_t length = CONTOUR_BAND_RECORD(M) * (size_t)answer->spot;
    int32_t *records = larger(NULL, length * sizeof *records);
    *answer = band(drawing, records, length);
    return records;
}

static void print_band(int32_t tolerance, struct contour_band_answer answer, const int32_t *records) {
    printf("tolerance %" PRId32 ": curves %" PRIu64 ", leaves %" PRIu64 ", nodes %" PRIu64 "\n", tolerance, answer.curves,
           answer.leaves, answer.nodes);
    for (const int32_t *record = records; record < records + CONTOUR_BAND_RECORD(M) * answer.leaves;
         record += CONTOUR_BAND_RECORD(M)) {
        printf("curve %" PRId32 " node %" PRId32, record[0], record[1]);
        for (const int32_t *box = record + 2; box < record + CONTOUR_BAND_RECORD(M); box += 4) {
            printf(" (%" PRId32 " %" PRId32 " %" PRId32 " %" PRId32 ")", box[0], box[1], box[2], box[3]);
        }
        printf("\n");
    }
}

/* Prints the judgements, three numbers each, and their counts. The exit status that they make. */
static int print_points(const struct list *points, const int64_t *answers) {
    size_t on = 0, off = 0, refused = 0;
    for (const int32_t *xy = points->numbers; xy < points->numbers + points->length; xy += 2, answers += CONTOUR_BAND_ANSWER) {
        printf("(%" PRId32 " %" PRId32 ") ", xy[0], xy[1]);
        if (answers[0] == 1) {
            on++;
            printf("on, record %" PRId64 " cover %" PRId64 "\n", answers[1], answers[2]);
        } else if (answers[0] == 0) {
            off++;
            printf("off\n");
        } else {
            refused++;
            printf("refused %" PRId64 " %" PRId64 ": %s\n", answers[0], answers[1], contour_refusal_text((uint32_t)answers[0]));
        }
    }
    printf("points %zu: on %zu, off %zu, refused %zu\n", points->length / 2, on, off, refused);
    return refused > 0 ? 2 : off > 0;
}

/* Ends the output. What standard output did not take is a failure; where nobody reads it any more, nobody is told. */
static void finish(void) {
    if (fflush(stdout) != 0 || ferror(stdout)) {
        if (errno == EPIPE) {
            exit(2);
        }
        fail("standard output: %s", strerror(errno));
    }
}

/* Judges the points against the records written. Three numbers for each point. */
static int64_t *judged(const struct list *points, const int32_t *records, uint64_t leaves) {
    const size_t length = CONTOUR_BAND_ANSWER * (points->length / 2);
    int64_t *answers = larger(NULL, length * sizeof *answers + 1);
    const struct contour_band_points answer = contour_judge_points(records, CONTOUR_BAND_RECORD(M) * (size_t)leaves, M,
                                                                   points->numbers, points->length, answers, length);
    if (answer.refusal != CONTOUR_BAND_ACCEPTED) {
        fail("the points are refused: %s", contour_refusal_text(answer.refusal));
    }
    return answers;
}

int main(int count, char **arguments) {
    if (count != 3) {
        fail("usage: inspect OUTLINE POINTS");
    }
#ifdef SIGPIPE
    signal(SIGPIPE, SIG_IGN);
#endif
    const struct drawing drawing = read_outline(arguments[1]);
    const struct list points = read_points(arguments[2]);
    struct contour_band_answer answer;
    int32_t *records = banded(arguments[1], &drawing, &answer);
    int64_t *answers = judged(&points, records, answer.leaves);
    print_band(drawing.tolerance, answer, records);
    const int status = print_points(&points, answers);
    finish();
    free(answers);
    free(records);
    free(points.numbers);
    free(drawing.numbers.numbers);
    return status;
}
