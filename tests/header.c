/* What include/mezhtolik.h says of names and of numbers beyond their range. Stops at the first that does not hold. */
#include <stdio.h>
#include <stdlib.h>
#include <string.h>

#include "mezhtolik.h"

static int32_t area[MEZHTOLIK_AREA], results[MEZHTOLIK_RESULTS];

static void check(int holds, int line)
{
    if (!holds) {
        printf("header.c:%d does not hold\n", line);
        exit(1);
    }
}
#define CHECK(holds) check(holds, __LINE__)

static void calibrate(int64_t axis, int64_t direction, int64_t trigger)
{
    int64_t raw = direction == MEZHTOLIK_POSITIVE ? -trigger : trigger;

    CHECK(mezhtolik_calibrate(area, MEZHTOLIK_AREA, 1, axis, direction, 0, raw, 0, 1000000) == MEZHTOLIK_DONE);
}

static mezhtolik_decision measure_tool(const int64_t *arguments)
{
    return mezhtolik_measure_tool(area, MEZHTOLIK_AREA, arguments, MEZHTOLIK_TOOL_ARGUMENTS, results, MEZHTOLIK_RESULTS, 0);
}

static mezhtolik_decision measure_zero(const int64_t *arguments)
{
    return mezhtolik_measure_zero(area, MEZHTOLIK_AREA, arguments, MEZHTOLIK_ZERO_ARGUMENTS, results, MEZHTOLIK_RESULTS, 0);
}

/* A place of the result array and the number that belongs there. */
typedef struct entry {
    int place;
    int32_t number;
} entry;

/* Every number of the result array: those listed, and 0 at every other place. */
static void check_results(const entry *entries, size_t count)
{
    int32_t expected[MEZHTOLIK_RESULTS] = {0};
    size_t i;

    for (i = 0; i < count; i++) {
        expected[entries[i].place] = entries[i].number;
    }
    CHECK(memcmp(results, expected, sizeof expected) == 0);
}

/* The hole of the seventh line of jobs/bore-20H7-drift.txt: from 899946 to 1100082 and from 699924 to 900060. */
static void names_of_a_hole(void)
{
    static const int64_t hole[] = {MEZHTOLIK_KIND_HOLE, 1, 1, 0, 200105, 1000000, 800000, 929901, 1070122, 729881, 870098, 7, 5, 4, 3, 35, 70, 105, -105, 210,
                                   10000};
    static const entry entries[] = {{MEZHTOLIK_OVR_SETPOINT, 200105}, {MEZHTOLIK_OVR_SET_CENTRE_1, 1000000}, {MEZHTOLIK_OVR_SET_CENTRE_2, 800000},
                                    {MEZHTOLIK_OVR_MEASURED, 200124}, {MEZHTOLIK_OVR_CENTRE_1, 2000028}, {MEZHTOLIK_OVR_CENTRE_2, 1599984},
                                    {MEZHTOLIK_OVR_UPPER_LIMIT, 200210}, {MEZHTOLIK_OVR_LOWER_LIMIT, 200000}, {MEZHTOLIK_OVR_DEVIATION, 19},
                                    {MEZHTOLIK_OVR_SHIFT_1, 28}, {MEZHTOLIK_OVR_SHIFT_2, -16}, {MEZHTOLIK_OVR_TZL, 35}, {MEZHTOLIK_OVR_TSA, 10000},
                                    {MEZHTOLIK_OVR_TDIF, 210}, {MEZHTOLIK_OVR_EMPIRICAL, 12}, {MEZHTOLIK_OVR_MEAN, 6}, {MEZHTOLIK_OVI_CORRECTED, 7},
                                    {MEZHTOLIK_OVI_CYCLE, 977}, {MEZHTOLIK_OVI_KIND, 1}, {MEZHTOLIK_OVI_K, 3}, {MEZHTOLIK_OVI_PROBE, 1},
                                    {MEZHTOLIK_OVI_MV, 4}, {MEZHTOLIK_OVI_EV, 5}, {MEZHTOLIK_OVI_TOOL, 7}};

    mezhtolik_fresh(area, MEZHTOLIK_AREA);
    calibrate(1, MEZHTOLIK_POSITIVE, 29960);
    calibrate(1, MEZHTOLIK_NEGATIVE, 29955);
    calibrate(2, MEZHTOLIK_POSITIVE, 29962);
    calibrate(2, MEZHTOLIK_NEGATIVE, 29957);
    mezhtolik_set_empirical(area, MEZHTOLIK_AREA, 5, 12);
    CHECK(measure_tool(hole).branch == MEZHTOLIK_BRANCH_MEAN_KEPT);
    check_results(entries, sizeof entries / sizeof entries[0]);
}

/* A plane on axis 3, from above, 13 um low; trigger 30000. */
static const int64_t plane[MEZHTOLIK_TOOL_ARGUMENTS] = {MEZHTOLIK_KIND_PLANE, 1, 3, MEZHTOLIK_NEGATIVE, 800000, 0, 0, 829870, 0, 0, 0, 2, 0, 0, 8, 20, 100, 120,
                                                        -120, 300, 20000};

static const int64_t zero_plane[MEZHTOLIK_ZERO_ARGUMENTS] = {MEZHTOLIK_KIND_ZERO_PLANE, 1, 3, MEZHTOLIK_NEGATIVE, 800000, 0, 0, 829870, 0, 0, 0, 4, 20000};

static mezhtolik_decision measure_readings(const float *reports, uint32_t reported)
{
    return mezhtolik_measure_tool_readings(area, MEZHTOLIK_AREA, plane, MEZHTOLIK_TOOL_ARGUMENTS, reports, MEZHTOLIK_REPORTS, reported, results,
                                           MEZHTOLIK_RESULTS, 0);
}

static void names_of_planes(void)
{
    static const entry tool[] = {{MEZHTOLIK_OVR_SETPOINT, 800000}, {MEZHTOLIK_OVR_MEASURED, 799870}, {MEZHTOLIK_OVR_UPPER_LIMIT, 800120},
                                 {MEZHTOLIK_OVR_LOWER_LIMIT, 799880}, {MEZHTOLIK_OVR_DEVIATION, -130}, {MEZHTOLIK_OVR_CORRECTION, -130},
                                 {MEZHTOLIK_OVR_TZL, 20}, {MEZHTOLIK_OVR_TSA, 20000}, {MEZHTOLIK_OVR_TDIF, 300}, {MEZHTOLIK_OVI_CORRECTED, 2},
                                 {MEZHTOLIK_OVI_CYCLE, 978}, {MEZHTOLIK_OVI_K, 8}, {MEZHTOLIK_OVI_PROBE, 1}, {MEZHTOLIK_OVI_TOOL, 2}};
    static const entry zero[] = {{MEZHTOLIK_OVR_SETPOINT, 800000}, {MEZHTOLIK_OVR_MEASURED, 799870}, {MEZHTOLIK_OVR_DEVIATION, -130},
                                 {MEZHTOLIK_OVR_TSA, 20000}, {MEZHTOLIK_OVI_CORRECTED, 4}, {MEZHTOLIK_OVI_CYCLE, 978},
                                 {MEZHTOLIK_OVI_KIND, MEZHTOLIK_KIND_ZERO_PLANE}, {MEZHTOLIK_OVI_PROBE, 1}};
    static const entry refused[] = {{MEZHTOLIK_OVI_REFUSAL, MEZHTOLIK_UNCALIBRATED}};
    mezhtolik_decision d;

    mezhtolik_fresh(area, MEZHTOLIK_AREA);
    CHECK(measure_tool(plane).refusal == MEZHTOLIK_UNCALIBRATED);
    check_results(refused, 1);
    calibrate(3, MEZHTOLIK_NEGATIVE, 30000);
    d = measure_tool(plane);
    CHECK(d.branch == MEZHTOLIK_BRANCH_BEYOND_TMV && d.verdict == MEZHTOLIK_UNDERSIZE && area[MEZHTOLIK_LENGTH_WEAR(2)] == 260);
    check_results(tool, sizeof tool / sizeof tool[0]);
    d = measure_zero(zero_plane);
    CHECK(d.branch == MEZHTOLIK_BRANCH_ZERO_OFFSET && d.verdict == MEZHTOLIK_IN_TOLERANCE && area[MEZHTOLIK_OFFSET(4, 3)] == -260);
    check_results(zero, sizeof zero / sizeof zero[0]);
}

/* The same planes by a box that reports 82.987 mm for Z, and what is no number for X and Y; then with a whole raw, and with Z beyond 1000 mm. */
static void names_of_reports(void)
{
    const uint32_t no_number = 0xffc00000;
    float reports[MEZHTOLIK_REPORTS];
    mezhtolik_decision d;
    int raw, axis;

    CHECK(MEZHTOLIK_REPORT(1, 1) == 0 && MEZHTOLIK_REPORT(4, 3) == MEZHTOLIK_REPORTS - 1);
    for (raw = 1; raw <= 4; raw++) {
        for (axis = 1; axis <= 3; axis++) {
            memcpy(&reports[MEZHTOLIK_REPORT(raw, axis)], &no_number, sizeof no_number);
        }
    }
    mezhtolik_fresh(area, MEZHTOLIK_AREA);
    CHECK(mezhtolik_calibrate_report(area, MEZHTOLIK_AREA, 1, 3, MEZHTOLIK_NEGATIVE, 0, reports[0], reports[1], 3.0f, 0, 40000) == MEZHTOLIK_DONE);
    CHECK(area[MEZHTOLIK_TRIGGER(1, 5)] == 30000);
    reports[MEZHTOLIK_REPORT(1, 3)] = 82.987f;
    d = measure_readings(reports, MEZHTOLIK_REPORTED_R1);
    CHECK(d.branch == MEZHTOLIK_BRANCH_BEYOND_TMV && results[MEZHTOLIK_OVR_DEVIATION] == -130 && area[MEZHTOLIK_LENGTH_WEAR(2)] == 260);
    d = measure_readings(reports, MEZHTOLIK_REPORTED_R2 | MEZHTOLIK_REPORTED_R3 | MEZHTOLIK_REPORTED_R4);
    CHECK(d.refusal == MEZHTOLIK_DONE && results[MEZHTOLIK_OVR_DEVIATION] == -130);
    reports[MEZHTOLIK_REPORT(1, 3)] = -1000.5f;
    CHECK(measure_readings(reports, MEZHTOLIK_REPORTED_R1).refusal == MEZHTOLIK_BAD_FLOAT && results[MEZHTOLIK_OVI_REFUSAL] == 13);
}

static int status_is(int32_t number, uint32_t bits, uint32_t count)
{
    mezhtolik_status s;

    area[MEZHTOLIK_STATUS(1)] = number;
    s = mezhtolik_probe_status(area, MEZHTOLIK_AREA, 1);
    return s.refusal == 0 && s.bits == bits && s.count == count && area[MEZHTOLIK_STATUS(1)] == number;
}

static void statuses_beyond_their_range(void)
{
    mezhtolik_fresh(area, MEZHTOLIK_AREA);
    CHECK(status_is(300, 63, 6) && status_is(64, 0, 0) && status_is(-1, 0, 0) && status_is(192 + 5, 5, 2));
    calibrate(1, MEZHTOLIK_POSITIVE, 7);
    CHECK(area[MEZHTOLIK_STATUS(1)] == 7);
    area[MEZHTOLIK_STATUS(1)] = 300;
    calibrate(1, MEZHTOLIK_POSITIVE, 7);
    CHECK(area[MEZHTOLIK_STATUS(1)] == 63);
}

/* A trigger of two thousand million reads as 100000; a calibration to 100000 changes nothing and leaves it, one to 99999 replaces it. */
static void triggers_beyond_their_range(void)
{
    int64_t far_plane[MEZHTOLIK_ZERO_ARGUMENTS];
    int32_t *trigger = &area[MEZHTOLIK_TRIGGER(1, 5)];

    mezhtolik_fresh(area, MEZHTOLIK_AREA);
    *trigger = 2000000000;
    calibrate(3, MEZHTOLIK_NEGATIVE, 100000);
    CHECK(*trigger == 2000000000);
    memcpy(far_plane, zero_plane, sizeof far_plane);
    far_plane[MEZHTOLIK_ARG_R1] = 900000;
    CHECK(measure_zero(far_plane).refusal == 0 && results[MEZHTOLIK_OVR_DEVIATION] == 0 && *trigger == 2000000000);
    calibrate(3, MEZHTOLIK_NEGATIVE, 99999);
    CHECK(*trigger == 99999);
}

/* A wear stands as it is: beyond its range the one corrected is refused, also where the correction is 0, and the other plays no part. */
static void wears_beyond_their_range(void)
{
    int64_t exact[MEZHTOLIK_TOOL_ARGUMENTS];
    int32_t *length = &area[MEZHTOLIK_LENGTH_WEAR(2)];

    mezhtolik_fresh(area, MEZHTOLIK_AREA);
    calibrate(3, MEZHTOLIK_NEGATIVE, 30000);
    memcpy(exact, plane, sizeof exact);
    exact[MEZHTOLIK_ARG_R1] = 830000;
    area[MEZHTOLIK_RADIUS_WEAR(2)] = 2000001;
    CHECK(measure_tool(exact).branch == MEZHTOLIK_BRANCH_WITHIN_TZL && area[MEZHTOLIK_RADIUS_WEAR(2)] == 2000001);
    *length = -2000001;
    CHECK(measure_tool(exact).refusal == MEZHTOLIK_LEAVES_RANGE && *length == -2000001);
    CHECK(measure_tool(plane).refusal == MEZHTOLIK_DONE && *length == -2000001 + 260 && area[MEZHTOLIK_RADIUS_WEAR(2)] == 2000001);
}

static void offsets_beyond_their_range(void)
{
    int32_t *third = &area[MEZHTOLIK_OFFSET(4, 3)];

    mezhtolik_fresh(area, MEZHTOLIK_AREA);
    calibrate(3, MEZHTOLIK_NEGATIVE, 30000);
    area[MEZHTOLIK_OFFSET(4, 1)] = 20000001;
    *third = -20000000;
    CHECK(measure_zero(zero_plane).refusal == MEZHTOLIK_LEAVES_RANGE && *third == -20000000);
    *third = 20000001;
    CHECK(measure_zero(zero_plane).refusal == MEZHTOLIK_DONE && *third == 20000001 - 260 && area[MEZHTOLIK_OFFSET(4, 1)] == 20000001);
}

static void values_beyond_their_range(void)
{
    uint8_t block[MEZHTOLIK_BLOCK];

    mezhtolik_fresh(area, MEZHTOLIK_AREA);
    area[MEZHTOLIK_EV(1)] = 40000;
    area[MEZHTOLIK_MV(20)] = -40000;
    CHECK(mezhtolik_save(area, MEZHTOLIK_AREA, block, MEZHTOLIK_BLOCK) == MEZHTOLIK_DONE);
    CHECK(block[0] == 0xff && block[1] == 0x7f && block[78] == 0x00 && block[79] == 0x80);
    CHECK(area[MEZHTOLIK_EV(1)] == 40000 && area[MEZHTOLIK_MV(20)] == -40000);
}

int main(void)
{
    names_of_a_hole();
    names_of_planes();
    names_of_reports();
    statuses_beyond_their_range();
    triggers_beyond_their_range();
    wears_beyond_their_range();
    offsets_beyond_their_range();
    values_beyond_their_range();
    return 0;
}
