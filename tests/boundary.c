/* The exported calls as C sees them: that each argument, buffer and answer reaches its place, and what refusals leave. Stops at the first fault. */
#include <stdio.h>
#include <stdlib.h>
#include <string.h>

#include "mezhtolik.h"

#define GUARD 77
#define LENGTH(a) (sizeof(a) / sizeof((a)[0]))

/* The area stands between guards, so that an area of another length can be lent too. */
static int32_t room[1 + MEZHTOLIK_AREA + 2], room_before[LENGTH(room)];
static int32_t *const area = room + 1;
static int32_t results[3 + MEZHTOLIK_RESULTS + 3], results_before[LENGTH(results)];
static uint8_t buffer[MEZHTOLIK_BLOCK + 2], buffer_before[LENGTH(buffer)];
static int64_t tool[MEZHTOLIK_TOOL_ARGUMENTS + 1], zero[MEZHTOLIK_ZERO_ARGUMENTS + 1];
static float reports[MEZHTOLIK_REPORTS + 1];

static void check(int holds, int line)
{
    if (!holds) {
        printf("boundary.c:%d does not hold\n", line);
        exit(1);
    }
}
#define CHECK(holds) check(holds, __LINE__)

static void remember(void)
{
    memcpy(room_before, room, sizeof room);
    memcpy(results_before, results, sizeof results);
    memcpy(buffer_before, buffer, sizeof buffer);
}

static int area_left(void) { return memcmp(room, room_before, sizeof room) == 0; }
static int results_left(void) { return memcmp(results, results_before, sizeof results) == 0; }
static int buffer_left(void) { return memcmp(buffer, buffer_before, sizeof buffer) == 0; }
static int all_left(void) { return area_left() && results_left() && buffer_left(); }

static int decided(mezhtolik_decision d, uint32_t refusal, uint32_t branch, uint32_t verdict)
{
    return d.refusal == refusal && d.branch == branch && d.verdict == verdict;
}

/* What is no number, without math.h. */
static float no_number(void)
{
    const uint32_t bits = 0x7fc00000;
    float x;

    memcpy(&x, &bits, sizeof x);
    return x;
}

static mezhtolik_decision tool_readings(uint32_t reported)
{
    return mezhtolik_measure_tool_readings(area, MEZHTOLIK_AREA, tool, 21, reports, 12, reported, results, LENGTH(results), 3);
}

static mezhtolik_decision zero_readings(uint32_t reported)
{
    return mezhtolik_measure_zero_readings(area, MEZHTOLIK_AREA, zero, 13, reports, 12, reported, results, LENGTH(results), 3);
}

/* A plane at 1000 u on axis 3, touched in the negative direction, 40 u above its setpoint. */
static void plane(int64_t *a, int64_t kind)
{
    a[MEZHTOLIK_ARG_KIND] = kind;
    a[MEZHTOLIK_ARG_PROBE] = 2;
    a[MEZHTOLIK_ARG_AXIS] = 3;
    a[MEZHTOLIK_ARG_DIRECTION] = 1;
    a[MEZHTOLIK_ARG_SETPOINT] = 1000;
    a[MEZHTOLIK_ARG_R1] = 1340;
}

static void prepare(void)
{
    size_t i;

    for (i = 0; i < LENGTH(room); i++) {
        room[i] = GUARD;
    }
    for (i = 0; i < LENGTH(results); i++) {
        results[i] = GUARD;
    }
    memset(buffer, GUARD, sizeof buffer);
    plane(tool, 0);
    tool[MEZHTOLIK_ARG_TOOL] = 32;
    tool[MEZHTOLIK_ARG_EV] = 20;
    tool[MEZHTOLIK_ARG_K] = 1;
    tool[MEZHTOLIK_ARG_TUL] = 30;
    tool[MEZHTOLIK_ARG_TMV] = 100;
    tool[MEZHTOLIK_ARG_TDIF] = 200;
    tool[MEZHTOLIK_ARG_TSA] = 300;
    plane(zero, 100);
    zero[MEZHTOLIK_ARG_OFFSET] = 4;
    zero[MEZHTOLIK_ARG_ZERO_TSA] = 300;
    CHECK(mezhtolik_fresh(area, MEZHTOLIK_AREA) == 0 && room[0] == GUARD && area[MEZHTOLIK_AREA] == GUARD);
    for (i = 0; i < MEZHTOLIK_AREA; i++) {
        CHECK(area[i] == 0);
    }
}

static void wrong_area(size_t length)
{
    mezhtolik_status s = mezhtolik_probe_status(area, length, 1);

    CHECK(s.refusal == 100 && s.bits == 0 && s.count == 0);
    CHECK(mezhtolik_fresh(area, length) == 100);
    CHECK(mezhtolik_set_empirical(area, length, 1, 1) == 100);
    CHECK(mezhtolik_set_wear(area, length, 1, 1, 1) == 100);
    CHECK(mezhtolik_set_offset(area, length, 1, 1, 1, 1) == 100);
    CHECK(mezhtolik_calibrate(area, length, 1, 1, 0, 0, 0, 0, 0) == 100);
    CHECK(decided(mezhtolik_measure_tool(area, length, tool, 0, results, MEZHTOLIK_RESULTS, 0), 100, 0, 0));
    CHECK(decided(mezhtolik_measure_zero(area, length, zero, 0, results, MEZHTOLIK_RESULTS, 0), 100, 0, 0));
    CHECK(mezhtolik_calibrate_report(area, length, 1, 1, 0, 0, 0, 0, 0, 0, 0) == 100);
    CHECK(decided(mezhtolik_measure_tool_readings(area, length, tool, 0, reports, 0, 0, results, MEZHTOLIK_RESULTS, 0), 100, 0, 0));
    CHECK(decided(mezhtolik_measure_zero_readings(area, length, zero, 0, reports, 0, 0, results, MEZHTOLIK_RESULTS, 0), 100, 0, 0));
    CHECK(mezhtolik_load(area, length, buffer, MEZHTOLIK_BLOCK) == 100);
    CHECK(mezhtolik_save(area, length, buffer, MEZHTOLIK_BLOCK) == 100);
}

static void settings(void)
{
    CHECK(mezhtolik_set_empirical(area, MEZHTOLIK_AREA, 20, -7) == 0 && area[MEZHTOLIK_EV(20)] == -7);
    CHECK(mezhtolik_set_wear(area, MEZHTOLIK_AREA, 32, -11, 12) == 0);
    CHECK(area[MEZHTOLIK_RADIUS_WEAR(32)] == -11 && area[MEZHTOLIK_LENGTH_WEAR(32)] == 12);
    CHECK(mezhtolik_set_offset(area, MEZHTOLIK_AREA, 4, 21, -22, 23) == 0);
    CHECK(area[MEZHTOLIK_OFFSET(4, 1)] == 21 && area[MEZHTOLIK_OFFSET(4, 2)] == -22 && area[MEZHTOLIK_OFFSET(4, 3)] == 23);
    remember();
    CHECK(mezhtolik_set_empirical(area, MEZHTOLIK_AREA, 21, 0) == 2 && mezhtolik_set_empirical(area, MEZHTOLIK_AREA, 1, INT64_MIN) == 3);
    CHECK(mezhtolik_set_wear(area, MEZHTOLIK_AREA, INT64_MAX, 0, 0) == 2 && mezhtolik_set_wear(area, MEZHTOLIK_AREA, 1, 0, 2000001) == 3);
    CHECK(mezhtolik_set_offset(area, MEZHTOLIK_AREA, 0, 0, 0, 0) == 2 && mezhtolik_set_offset(area, MEZHTOLIK_AREA, 1, 0, 0, 20000001) == 3);
    CHECK(all_left());
}

static void probes(void)
{
    mezhtolik_status s;

    CHECK(mezhtolik_calibrate(area, MEZHTOLIK_AREA, 2, 3, 1, 100, 400, 250, 350) == 0);
    CHECK(area[MEZHTOLIK_TRIGGER(2, 5)] == 300 && area[MEZHTOLIK_STATUS(2)] == 16);
    s = mezhtolik_probe_status(area, MEZHTOLIK_AREA, 2);
    CHECK(s.refusal == 0 && s.bits == 16 && s.count == 1);
    s = mezhtolik_probe_status(area, MEZHTOLIK_AREA, 4);
    CHECK(s.refusal == 2 && s.bits == 0 && s.count == 0);
    remember();
    CHECK(mezhtolik_calibrate(area, MEZHTOLIK_AREA, 2, 3, 1, 100, 800, 250, 350) == 7 && all_left());
}

static void measurements(void)
{
    remember();
    CHECK(decided(mezhtolik_measure_tool(area, MEZHTOLIK_AREA, tool, 20, results, LENGTH(results), 0), 101, 0, 0));
    CHECK(decided(mezhtolik_measure_tool(area, MEZHTOLIK_AREA, tool, 22, results, LENGTH(results), 0), 101, 0, 0));
    CHECK(decided(mezhtolik_measure_zero(area, MEZHTOLIK_AREA, zero, 12, results, LENGTH(results), 0), 101, 0, 0));
    CHECK(decided(mezhtolik_measure_zero(area, MEZHTOLIK_AREA, zero, 14, results, LENGTH(results), 0), 101, 0, 0));
    CHECK(decided(mezhtolik_measure_tool(area, MEZHTOLIK_AREA, tool, 21, results, LENGTH(results), 7), 1, 0, 0));
    CHECK(decided(mezhtolik_measure_zero(area, MEZHTOLIK_AREA, zero, 13, results, LENGTH(results), SIZE_MAX), 1, 0, 0));
    CHECK(all_left());

    /* 1340 - 300 measured, 7 for the empirical value: 47 above the setpoint, oversize; 2 * 47 h less length wear */
    CHECK(decided(mezhtolik_measure_tool(area, MEZHTOLIK_AREA, tool, 21, results, LENGTH(results), 3), 0, 2, 1));
    CHECK(area[MEZHTOLIK_LENGTH_WEAR(32)] == 12 - 94 && area[MEZHTOLIK_RADIUS_WEAR(32)] == -11);
    CHECK(results[2] == GUARD && results[3 + MEZHTOLIK_RESULTS] == GUARD);
    CHECK(results[3 + MEZHTOLIK_OVR(16)] == 47 && results[3 + MEZHTOLIK_OVR(20)] == 47 && results[3 + MEZHTOLIK_OVI(8)] == 32);

    CHECK(decided(mezhtolik_measure_zero(area, MEZHTOLIK_AREA, zero, 13, results, LENGTH(results), 3), 0, 6, 0));
    CHECK(area[MEZHTOLIK_OFFSET(4, 3)] == 23 + 80 && area[MEZHTOLIK_OFFSET(4, 1)] == 21);
    CHECK(results[3 + MEZHTOLIK_OVR(16)] == 40 && results[3 + MEZHTOLIK_OVI(0)] == 4 && results[3 + MEZHTOLIK_OVI(8)] == 0);

    remember();
    tool[MEZHTOLIK_ARG_KIND] = 104;
    CHECK(decided(mezhtolik_measure_tool(area, MEZHTOLIK_AREA, tool, 21, results, LENGTH(results), 3), 2, 0, 0));
    CHECK(area_left() && results[3 + MEZHTOLIK_OVR(16)] == 0 && results[3 + MEZHTOLIK_OVI(9)] == 2 && results[2] == GUARD);
}

/* Whether every number of the area is as before, save count numbers from place on. */
static int only(size_t place, size_t count)
{
    return memcmp(room, room_before, (1 + place) * sizeof room[0]) == 0 &&
           memcmp(area + place + count, room_before + 1 + place + count, (LENGTH(room) - 1 - place - count) * sizeof room[0]) == 0;
}

/* X, Y and Z reach their axes, and each limit its place. */
static void reported_probes(void)
{
    const float none = no_number();

    CHECK(mezhtolik_calibrate_report(area, MEZHTOLIK_AREA, 1, 1, 0, 100, -0.02f, none, none, 250, 350) == 0 && area[MEZHTOLIK_TRIGGER(1, 2)] == 300);
    CHECK(mezhtolik_calibrate_report(area, MEZHTOLIK_AREA, 1, 2, 0, 100, none, -0.02f, none, 250, 350) == 0 && area[MEZHTOLIK_TRIGGER(1, 4)] == 300);
    CHECK(mezhtolik_calibrate_report(area, MEZHTOLIK_AREA, 1, 3, 1, 100, none, none, 0.04f, 250, 350) == 0 && area[MEZHTOLIK_TRIGGER(1, 5)] == 300);
    CHECK(area[MEZHTOLIK_STATUS(1)] == 2 + 8 + 16);
    remember();
    CHECK(mezhtolik_calibrate_report(area, MEZHTOLIK_AREA, 1, 4, 0, 10000001, none, none, none, 0, 0) == 2);
    CHECK(mezhtolik_calibrate_report(area, MEZHTOLIK_AREA, 1, 1, 0, 10000001, none, 0, 0, 0, 0) == 13);
    CHECK(mezhtolik_calibrate_report(area, MEZHTOLIK_AREA, 1, 1, 0, 10000001, 0, none, none, 0, 0) == 3);
    CHECK(mezhtolik_calibrate_report(area, MEZHTOLIK_AREA, 1, 3, 1, 100, 0, 0, 0.08f, 250, 350) == 7);
    CHECK(mezhtolik_calibrate_report(area, MEZHTOLIK_AREA, 1, 3, 1, 100, 0, 0, 1000.0f, 0, 1000000) == 7);
    CHECK(mezhtolik_calibrate_report(area, MEZHTOLIK_AREA, 1, 3, 1, 100, 0, 0, 1000.0001f, 0, 1000000) == 13 && all_left());
}

/* The planes of measurements() read by a box: Z of the first report. What is not used is not looked at. */
static void readings(void)
{
    size_t i;

    for (i = 0; i < LENGTH(reports); i++) {
        reports[i] = no_number();
    }
    tool[MEZHTOLIK_ARG_KIND] = 0;
    remember();
    CHECK(decided(mezhtolik_measure_tool_readings(area, MEZHTOLIK_AREA, tool, 20, reports, 12, 1, results, LENGTH(results), 0), 101, 0, 0));
    CHECK(decided(mezhtolik_measure_tool_readings(area, MEZHTOLIK_AREA, tool, 21, reports, 11, 1, results, LENGTH(results), 0), 101, 0, 0));
    CHECK(decided(mezhtolik_measure_tool_readings(area, MEZHTOLIK_AREA, tool, 21, reports, 13, 0, results, LENGTH(results), 0), 101, 0, 0));
    CHECK(decided(mezhtolik_measure_zero_readings(area, MEZHTOLIK_AREA, zero, 14, reports, 12, 1, results, LENGTH(results), 0), 101, 0, 0));
    CHECK(decided(mezhtolik_measure_zero_readings(area, MEZHTOLIK_AREA, zero, 13, reports, 0, 0, results, LENGTH(results), 0), 101, 0, 0));
    CHECK(decided(mezhtolik_measure_tool_readings(area, MEZHTOLIK_AREA, tool, 21, reports, 12, 1, results, LENGTH(results), 7), 1, 0, 0));
    CHECK(decided(mezhtolik_measure_zero_readings(area, MEZHTOLIK_AREA, zero, 13, reports, 12, 1, results, LENGTH(results), SIZE_MAX), 1, 0, 0));
    CHECK(all_left());
    CHECK(decided(tool_readings(MEZHTOLIK_REPORTED_R1), 13, 0, 0) && area_left() && results[3 + MEZHTOLIK_OVI(9)] == 13 && results[2] == GUARD);
    CHECK(decided(zero_readings(MEZHTOLIK_REPORTED_R1), 13, 0, 0) && area_left() && results[3 + MEZHTOLIK_OVI(9)] == 13);
    tool[MEZHTOLIK_ARG_PROBE] = 4;
    CHECK(decided(tool_readings(MEZHTOLIK_REPORTED_R1), 2, 0, 0));
    tool[MEZHTOLIK_ARG_PROBE] = 2;

    /* 0.134 mm are the 1340 u of before; the number among the arguments is not looked at */
    reports[MEZHTOLIK_REPORT(1, 3)] = 0.134f;
    tool[MEZHTOLIK_ARG_R1] = zero[MEZHTOLIK_ARG_R1] = INT64_MAX;
    CHECK(decided(tool_readings(0xffffffff), 0, 2, 1) && results[3 + MEZHTOLIK_OVR(16)] == 47 && only(MEZHTOLIK_RADIUS_WEAR(32), 2));
    remember();
    CHECK(decided(zero_readings(MEZHTOLIK_REPORTED_R1), 0, 6, 0) && results[3 + MEZHTOLIK_OVR(16)] == 40 && only(MEZHTOLIK_OFFSET(4, 1), 3));

    /* a clear bit: the number, whatever its floats */
    reports[MEZHTOLIK_REPORT(1, 3)] = no_number();
    tool[MEZHTOLIK_ARG_R1] = zero[MEZHTOLIK_ARG_R1] = 1340;
    CHECK(decided(tool_readings(0xfffffffe), 0, 2, 1) && results[3 + MEZHTOLIK_OVR(16)] == 47);
    CHECK(decided(zero_readings(0), 0, 6, 0) && results[3 + MEZHTOLIK_OVR(16)] == 40);
    tool[MEZHTOLIK_ARG_KIND] = 104;
}

/* A hole has X of its first two reports and Y of the others, each raw by itself whole or a report. */
static void reported_hole(void)
{
    static const int64_t hole[] = {1, 1, 0, 0, 200000, 1000000, 800000, 0, 1070000, 729900, 0, 7, 0, 0, 3, 35, 70, 105, -105, 210, 10000};
    int32_t own[MEZHTOLIK_AREA];
    int64_t axis;

    mezhtolik_fresh(own, MEZHTOLIK_AREA);
    for (axis = 1; axis <= 2; axis++) {
        CHECK(mezhtolik_calibrate(own, MEZHTOLIK_AREA, 1, axis, MEZHTOLIK_POSITIVE, 0, -30000, 0, 40000) == 0);
        CHECK(mezhtolik_calibrate(own, MEZHTOLIK_AREA, 1, axis, MEZHTOLIK_NEGATIVE, 0, 30000, 0, 40000) == 0);
    }
    reports[MEZHTOLIK_REPORT(1, 1)] = 93.0f;
    reports[MEZHTOLIK_REPORT(4, 2)] = 87.0f;
    CHECK(decided(mezhtolik_measure_tool_readings(own, MEZHTOLIK_AREA, hole, 21, reports, 12, MEZHTOLIK_REPORTED_R1 | MEZHTOLIK_REPORTED_R4, results,
                                                  LENGTH(results), 3), 0, 5, 0));
    CHECK(results[3 + MEZHTOLIK_OVR_DEVIATION] == 100 && results[3 + MEZHTOLIK_OVR_CENTRE_1] == 2000000 && results[3 + MEZHTOLIK_OVR_CENTRE_2] == 1599900);
}

static void blocks(void)
{
    remember();
    CHECK(mezhtolik_save(area, MEZHTOLIK_AREA, buffer, 79) == 1 && mezhtolik_load(area, MEZHTOLIK_AREA, buffer, 81) == 1 && all_left());
    CHECK(mezhtolik_save(area, MEZHTOLIK_AREA, buffer, LENGTH(buffer)) == 0 && area_left());
    CHECK(buffer[38] == 0xf9 && buffer[39] == 0xff && buffer[80] == GUARD && buffer[81] == GUARD);
    buffer[78] = 0x00;
    buffer[79] = 0x80;
    CHECK(mezhtolik_load(area, MEZHTOLIK_AREA, buffer, 80) == 0 && area[MEZHTOLIK_MV(20)] == -32768 && area[MEZHTOLIK_EV(20)] == -7);
}

/* Numbers that their records cannot hold: a call that is done leaves those that it does not change. */
static void any_content(void)
{
    area[MEZHTOLIK_EV(1)] = 70000;
    area[MEZHTOLIK_MV(1)] = INT32_MIN;
    area[MEZHTOLIK_STATUS(1)] = -1;
    area[MEZHTOLIK_STATUS(3)] = 1000;
    tool[MEZHTOLIK_ARG_KIND] = 0;
    remember();
    CHECK(mezhtolik_set_empirical(area, MEZHTOLIK_AREA, 0, 0) == 2 && area_left());
    CHECK(mezhtolik_set_empirical(area, MEZHTOLIK_AREA, 2, 5) == 0 && area[MEZHTOLIK_EV(2)] == 5 && only(MEZHTOLIK_EV(2), 1));
    remember();
    CHECK(mezhtolik_set_wear(area, MEZHTOLIK_AREA, 1, 6, 7) == 0 && only(MEZHTOLIK_RADIUS_WEAR(1), 2));
    remember();
    CHECK(mezhtolik_set_offset(area, MEZHTOLIK_AREA, 1, 8, 9, 10) == 0 && only(MEZHTOLIK_OFFSET(1, 1), 3));
    remember();
    CHECK(mezhtolik_calibrate(area, MEZHTOLIK_AREA, 2, 1, 0, 0, -50, 0, 50) == 0 && area[MEZHTOLIK_TRIGGER(2, 2)] == 50);
    CHECK(area[MEZHTOLIK_STATUS(2)] == 18 && only(MEZHTOLIK_TRIGGER(2, 1), 7));
    remember();
    CHECK(decided(mezhtolik_measure_tool(area, MEZHTOLIK_AREA, tool, 21, results, LENGTH(results), 3), 0, 2, 1) && only(MEZHTOLIK_RADIUS_WEAR(32), 2));
    remember();
    CHECK(decided(mezhtolik_measure_zero(area, MEZHTOLIK_AREA, zero, 13, results, LENGTH(results), 3), 0, 6, 0) && only(MEZHTOLIK_OFFSET(4, 1), 3));

    /* The mean is read as the nearest, and a correction by it leaves 0. */
    remember();
    tool[MEZHTOLIK_ARG_MV] = 1;
    CHECK(decided(mezhtolik_measure_tool(area, MEZHTOLIK_AREA, tool, 21, results, LENGTH(results), 3), 0, 4, 1) && area[MEZHTOLIK_MV(1)] == 0);
    area[MEZHTOLIK_MV(1)] = INT32_MIN;
    CHECK(only(MEZHTOLIK_RADIUS_WEAR(32), 2));
    remember();
    CHECK(mezhtolik_load(area, MEZHTOLIK_AREA, buffer, 80) == 0 && only(MEZHTOLIK_EV(1), 40) && area[MEZHTOLIK_EV(1)] == 0 && area[MEZHTOLIK_MV(1)] == 0);
}

/* A number of the area before and after a job. */
typedef struct number {
    int place;
    int32_t before, after;
} number;

/* Lines that read and change numbers out of range, with the answer of each. */
static const char *const odd_lines[][2] = {
    {"Z,100,1,3,0,500,0,0,-99500,0,0,0,2,1000", "0,6,0,0,0"}, /* status 300: all directions; trigger read as 100000 */
    {"E,3,5", "0,0,0,0,0"},
    {"E,4,32768", "3,0,0,0,0"},
    {"E,4,007", "10,0,0,0,0"},
    {"C,1,1,0,100000,0,0,200000", "0,0,0,0,0"}, /* from -100000, as it is read, to 100000 */
    {"C,1,1,1,0,100000,0,0", "0,0,0,0,0"},      /* 100000 as it is read: not replaced */
    {"C,2,3,0,0,-7,0,1000", "7,0,0,0,0"},       /* from -100000 to 7 */
    {"C,3,2,0,0,-40,0,1000", "0,0,0,0,0"},
    /* 60 u above the setpoint, the mean read as 32767: 32767 - 16354 is the new one, above TZL and then not */
    {"T,0,1,1,0,200000,0,0,100060,0,0,0,3,0,1,2,20,100,150,-150,300,1000", "0,4,0,60,16413"},
    {"T,0,1,1,0,200000,0,0,100060,0,0,0,3,0,3,2,20000,20000,150,-150,20000,20000", "0,3,0,60,0"},
    {"T,0,1,1,0,200000,0,0,132827,0,0,0,3,1,0,1,20,100,150,-150,300,1000", "0,2,0,60,60"}, /* EV 1 read as 32767 */
    /* the wear, and then the offset, is beyond its range: refused where it would stay there, and the mean with it */
    {"T,0,1,1,0,200000,0,0,100000,0,0,0,1,0,2,1,20,100,150,-150,300,1000", "9,0,0,0,0"},
    {"T,0,1,1,0,200000,0,0,99950,0,0,0,1,0,0,1,20,100,150,-150,300,1000", "0,2,0,-50,-50"},
    {"W,2,1,2", "0,0,0,0,0"},
    {"Z,100,1,1,0,200000,0,0,100000,0,0,0,1,1000", "9,0,0,0,0"},
    {"Z,100,1,1,0,200000,0,0,99950,0,0,0,1,1000", "0,6,0,-50,0"},
};

static const number odd_numbers[] = {
    {MEZHTOLIK_TRIGGER(1, 2), -2000000000, 100000}, {MEZHTOLIK_STATUS(1), 300, 63},
    {MEZHTOLIK_TRIGGER(2, 6), INT32_MIN, INT32_MIN}, {MEZHTOLIK_STATUS(2), -1, -1},
    {MEZHTOLIK_TRIGGER(3, 4), 0, 40}, {MEZHTOLIK_STATUS(3), 64, 8},
    {MEZHTOLIK_EV(3), 70000, 5}, {MEZHTOLIK_MV(1), 40000, 0}, {MEZHTOLIK_MV(2), INT32_MIN, INT32_MIN}, {MEZHTOLIK_MV(3), 40000, 16413},
    {MEZHTOLIK_RADIUS_WEAR(1), 2000001, 2000001 - 100}, {MEZHTOLIK_RADIUS_WEAR(2), -2000001, 1}, {MEZHTOLIK_LENGTH_WEAR(2), 2000001, 2},
    {MEZHTOLIK_RADIUS_WEAR(3), 0, 2 * 16413 + 2 * 60}, {MEZHTOLIK_OFFSET(1, 1), 20000001, 20000001 - 100}, {MEZHTOLIK_OFFSET(2, 3), 7, 7},
};

/* A job changes what the calls of its lines change: every other number is far out of range here, and stays as it stands. */
static void job_on_any_content(void)
{
    char job[2000] = "", answers[LENGTH(odd_lines) * MEZHTOLIK_LINE_ROOM] = "", output[sizeof answers];
    mezhtolik_job j;
    size_t i;

    for (i = 0; i < LENGTH(odd_lines); i++) {
        sprintf(job + strlen(job), "%s\n", odd_lines[i][0]);
        sprintf(answers + strlen(answers), "%d,%s\n", (int)i + 1, odd_lines[i][1]);
    }
    for (i = 0; i < MEZHTOLIK_AREA; i++) {
        area[i] = INT32_MAX - (int32_t)i;
    }
    for (i = 0; i < LENGTH(odd_numbers); i++) {
        area[odd_numbers[i].place] = odd_numbers[i].before;
    }
    remember();
    for (i = 0; i < LENGTH(odd_numbers); i++) {
        room_before[1 + odd_numbers[i].place] = odd_numbers[i].after;
    }
    j = mezhtolik_run_job(area, MEZHTOLIK_AREA, (const uint8_t *)job, strlen(job), (uint8_t *)output, sizeof output);
    CHECK(j.refusal == MEZHTOLIK_DONE && j.length == strlen(answers) && memcmp(output, answers, j.length) == 0);
    CHECK(area_left());
}

/* A calibration and a malformed line. */
static void jobs(void)
{
    static const uint8_t job[] = "C,3,1,0,0,-500,0,1000\nE,01,2\n";
    static const uint8_t answers[] = "1,0,0,0,0,0\n2,10,0,0,0,0\n";
    uint8_t output[2 * MEZHTOLIK_LINE_ROOM + 1];
    mezhtolik_job j;

    memset(output, GUARD, sizeof output);
    remember();
    j = mezhtolik_run_job(area, MEZHTOLIK_AREA - 1, job, sizeof job - 1, output, sizeof output);
    CHECK(j.refusal == MEZHTOLIK_WRONG_AREA && j.length == 0);
    j = mezhtolik_run_job(area, MEZHTOLIK_AREA, job, 0, output, sizeof output);
    CHECK(j.refusal == MEZHTOLIK_EMPTY_JOB && j.length == 0);
    j = mezhtolik_run_job(area, MEZHTOLIK_AREA, job, sizeof job - 2, output, sizeof output);
    CHECK(j.refusal == MEZHTOLIK_WRONG_JOB && j.length == 0);
    j = mezhtolik_run_job(area, MEZHTOLIK_AREA, job, sizeof job - 1, output, 2 * MEZHTOLIK_LINE_ROOM - 1);
    CHECK(j.refusal == MEZHTOLIK_NO_ROOM && j.length == 0);
    CHECK(all_left() && output[0] == GUARD && memcmp(output, output + 1, sizeof output - 1) == 0);

    j = mezhtolik_run_job(area, MEZHTOLIK_AREA, job, sizeof job - 1, output, 2 * MEZHTOLIK_LINE_ROOM);
    CHECK(j.refusal == MEZHTOLIK_DONE && j.length == sizeof answers - 1);
    CHECK(memcmp(output, answers, sizeof answers - 1) == 0 && output[j.length] == GUARD && output[sizeof output - 1] == GUARD);
    CHECK(area[MEZHTOLIK_TRIGGER(3, 2)] == 500 && area[MEZHTOLIK_STATUS(3)] == 2);
}

int main(void)
{
    prepare();
    remember();
    wrong_area(0);
    wrong_area(MEZHTOLIK_AREA - 1);
    wrong_area(MEZHTOLIK_AREA + 1);
    CHECK(all_left());
    settings();
    probes();
    measurements();
    reported_probes();
    readings();
    reported_hole();
    blocks();
    jobs();
    any_content();
    job_on_any_content();
    CHECK(room[0] == GUARD && area[MEZHTOLIK_AREA] == GUARD && area[MEZHTOLIK_AREA + 1] == GUARD);
    return 0;
}
