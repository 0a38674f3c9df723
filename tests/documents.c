/*
 * The lines of a job as direct calls. Prints for each line, parted by bars: its answer as a job gives it, the record that it names after it, and the
 * surfaces of the pair whose width counts, where it measures one.
 */
#include <stdio.h>
#include <stdlib.h>
#include <string.h>

#include "mezhtolik.h"

enum { LINE = 256 };

static int32_t area[MEZHTOLIK_AREA], results[MEZHTOLIK_RESULTS];

/* A line's letter and the numbers behind it; of a G line also its floats, the same on each axis, and whether one has other digits. */
typedef struct line {
    char letter;
    size_t count;
    int64_t numbers[MEZHTOLIK_TOOL_ARGUMENTS];
    float reports[MEZHTOLIK_REPORTS];
    int malformed;
} line;

/* The float of a raw, 1..4, from its eight digits. */
static void read_float(line *l, int raw, const char *digits)
{
    uint32_t bits = (uint32_t)strtoul(digits, NULL, 16);
    int axis;

    if (strspn(digits, "0123456789abcdef") != 8 || digits[8] != '\0') {
        l->malformed = 1;
    }
    for (axis = 1; axis <= 3; axis++) {
        memcpy(&l->reports[MEZHTOLIK_REPORT(raw, axis)], &bits, sizeof bits);
    }
}

static line read_line(char *text)
{
    line l;
    char *field = strtok(text, ",\n");

    memset(&l, 0, sizeof l);
    l.letter = field[0];
    for (field = strtok(NULL, ",\n"); field != NULL; field = strtok(NULL, ",\n")) {
        if (l.letter == 'G' && l.count >= MEZHTOLIK_ARG_R1 && l.count <= MEZHTOLIK_ARG_R4) {
            read_float(&l, (int)l.count - MEZHTOLIK_ARG_R1 + 1, field);
        } else {
            l.numbers[l.count] = strtoll(field, NULL, 10);
        }
        l.count++;
    }
    return l;
}

static mezhtolik_decision done(uint32_t refusal)
{
    mezhtolik_decision d = {0, 0, 0};

    d.refusal = refusal;
    return d;
}

/* A G line: all four raws are reports. */
static mezhtolik_decision measure_floats(const line *l)
{
    const uint32_t all = MEZHTOLIK_REPORTED_R1 | MEZHTOLIK_REPORTED_R2 | MEZHTOLIK_REPORTED_R3 | MEZHTOLIK_REPORTED_R4;

    if (l->malformed) {
        return done(MEZHTOLIK_MALFORMED_LINE);
    }
    return mezhtolik_measure_tool_readings(area, MEZHTOLIK_AREA, l->numbers, l->count, l->reports, MEZHTOLIK_REPORTS, all, results, MEZHTOLIK_RESULTS, 0);
}

static mezhtolik_decision call(const line *l)
{
    const int64_t *n = l->numbers;

    memset(results, 0, sizeof results);
    switch (l->letter) {
    case 'E': return done(mezhtolik_set_empirical(area, MEZHTOLIK_AREA, n[0], n[1]));
    case 'W': return done(mezhtolik_set_wear(area, MEZHTOLIK_AREA, n[0], n[1], n[2]));
    case 'O': return done(mezhtolik_set_offset(area, MEZHTOLIK_AREA, n[0], n[1], n[2], n[3]));
    case 'C': return done(mezhtolik_calibrate(area, MEZHTOLIK_AREA, n[0], n[1], n[2], n[3], n[4], n[5], n[6]));
    case 'T': return mezhtolik_measure_tool(area, MEZHTOLIK_AREA, n, l->count, results, MEZHTOLIK_RESULTS, 0);
    case 'Z': return mezhtolik_measure_zero(area, MEZHTOLIK_AREA, n, l->count, results, MEZHTOLIK_RESULTS, 0);
    case 'G': return measure_floats(l);
    default: exit(2);
    }
}

static void print_trigger(int64_t probe, int64_t axis, int64_t direction)
{
    int64_t place = direction == MEZHTOLIK_POSITIVE ? 2 * axis : 2 * axis - 1;

    printf("trigger = %d", area[MEZHTOLIK_TRIGGER(probe, place)]);
}

static void print_wear(int64_t tool)
{
    printf("wear %d = %d, %d", (int)tool, area[MEZHTOLIK_RADIUS_WEAR(tool)], area[MEZHTOLIK_LENGTH_WEAR(tool)]);
}

static void print_offset(int64_t offset)
{
    printf("offset %d = %d, %d, %d", (int)offset, area[MEZHTOLIK_OFFSET(offset, 1)], area[MEZHTOLIK_OFFSET(offset, 2)], area[MEZHTOLIK_OFFSET(offset, 3)]);
}

static void print_mean_and_wear(int64_t mv, int64_t tool)
{
    if (mv != 0) {
        printf("MV %d = %d; ", (int)mv, area[MEZHTOLIK_MV(mv)]);
    }
    print_wear(tool);
}

static void print_record(const line *l)
{
    const int64_t *n = l->numbers;

    switch (l->letter) {
    case 'E': printf("EV %d = %d", (int)n[0], area[MEZHTOLIK_EV(n[0])]); break;
    case 'W': print_wear(n[0]); break;
    case 'O': print_offset(n[0]); break;
    case 'C': print_trigger(n[0], n[1], n[2]); break;
    case 'T':
    case 'G': print_mean_and_wear(n[MEZHTOLIK_ARG_MV], n[MEZHTOLIK_ARG_TOOL]); break;
    default: print_offset(n[MEZHTOLIK_ARG_OFFSET]); break;
    }
}

/* Of the pair on the axis measured, on axis 2 of a hole or shaft: the width is high - low and the centre low + high. */
static void print_surfaces(const line *l)
{
    int64_t kind = l->numbers[MEZHTOLIK_ARG_KIND] % 100;
    int first = kind >= MEZHTOLIK_KIND_GROOVE && l->numbers[MEZHTOLIK_ARG_AXIS] == 1;
    int width = results[MEZHTOLIK_OVR_MEASURED] + results[MEZHTOLIK_OVR_EMPIRICAL];
    int centre = results[first ? MEZHTOLIK_OVR_CENTRE_1 : MEZHTOLIK_OVR_CENTRE_2];

    if (kind != MEZHTOLIK_KIND_PLANE && results[MEZHTOLIK_OVI_CYCLE] != 0) {
        printf("%d to %d", (centre - width) / 2, (centre + width) / 2);
    }
}

int main(int count, char **arguments)
{
    FILE *job = count == 2 ? fopen(arguments[1], "r") : NULL;
    char text[LINE];
    int number = 0;

    if (job == NULL) {
        return 2;
    }
    mezhtolik_fresh(area, MEZHTOLIK_AREA);
    while (fgets(text, LINE, job) != NULL) {
        line l = read_line(text);
        mezhtolik_decision d = call(&l);

        number++;
        printf("%d,%d,%d,%d,%d,%d|", number, (int)d.refusal, (int)d.branch, (int)d.verdict, results[MEZHTOLIK_OVR_DEVIATION],
               results[MEZHTOLIK_OVR_CORRECTION]);
        print_record(&l);
        putchar('|');
        print_surfaces(&l);
        putchar('\n');
    }
    fclose(job);
    return 0;
}
