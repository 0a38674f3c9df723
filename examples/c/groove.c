/*
 * A groove of 20 mm measured with tool offset: calibrates probe 1, measures three parts, saves the memory block between them and loads it again.
 * Build, from the root of the repository, after `tests/library`:
 *   cc -std=c99 -Iinclude examples/c/groove.c target/staticlib/libboundary.a -o target/groove
 */
#include <inttypes.h>
#include <stdio.h>
#include <string.h>

#include "mezhtolik.h"

static int32_t area[MEZHTOLIK_AREA];
static int32_t results[MEZHTOLIK_RESULTS];

/* A groove on an axis, measured with probe 1 for tool 4, mean 2 and k 5; low and high are the raws. */
static void measure(int64_t axis, int64_t low, int64_t high)
{
    int64_t a[MEZHTOLIK_TOOL_ARGUMENTS];
    mezhtolik_decision d;

    memset(a, 0, sizeof a);
    a[MEZHTOLIK_ARG_KIND] = MEZHTOLIK_KIND_GROOVE;
    a[MEZHTOLIK_ARG_PROBE] = 1;
    a[MEZHTOLIK_ARG_AXIS] = axis;
    a[MEZHTOLIK_ARG_SETPOINT] = 200000;
    a[MEZHTOLIK_ARG_R1] = low;
    a[MEZHTOLIK_ARG_R2] = high;
    a[MEZHTOLIK_ARG_TOOL] = 4;
    a[MEZHTOLIK_ARG_MV] = 2;
    a[MEZHTOLIK_ARG_K] = 5;
    a[MEZHTOLIK_ARG_TZL] = 20;
    a[MEZHTOLIK_ARG_TMV] = 100;
    a[MEZHTOLIK_ARG_TUL] = 150;
    a[MEZHTOLIK_ARG_TLL] = -150;
    a[MEZHTOLIK_ARG_TDIF] = 300;
    a[MEZHTOLIK_ARG_TSA] = 1000;
    d = mezhtolik_measure_tool(area, MEZHTOLIK_AREA, a, MEZHTOLIK_TOOL_ARGUMENTS, results, MEZHTOLIK_RESULTS, 0);
    printf("groove on axis %" PRId64 ": refusal %" PRIu32 ", branch %" PRIu32 ", verdict %" PRIu32, axis, d.refusal, d.branch, d.verdict);
    printf(", deviation %" PRId32 ", correction %" PRId32 "\n", results[MEZHTOLIK_OVR_DEVIATION], results[MEZHTOLIK_OVR_CORRECTION]);
}

static void show(const char *when)
{
    printf("%s: mean 2 is %" PRId32 ", radius wear of tool 4 is %" PRId32 "\n", when, area[MEZHTOLIK_MV(2)], area[MEZHTOLIK_RADIUS_WEAR(4)]);
}

int main(void)
{
    uint8_t block[MEZHTOLIK_BLOCK];
    mezhtolik_status s;

    printf("fresh: %" PRIu32 "\n", mezhtolik_fresh(area, MEZHTOLIK_AREA));
    printf("calibrate, positive: %" PRIu32 "\n", mezhtolik_calibrate(area, MEZHTOLIK_AREA, 1, 1, MEZHTOLIK_POSITIVE, 0, -500, 0, 1000));
    printf("calibrate, negative: %" PRIu32 "\n", mezhtolik_calibrate(area, MEZHTOLIK_AREA, 1, 1, MEZHTOLIK_NEGATIVE, 0, 500, 0, 1000));
    s = mezhtolik_probe_status(area, MEZHTOLIK_AREA, 1);
    printf("probe 1: bits %" PRIu32 ", %" PRIu32 " directions\n", s.bits, s.count);

    measure(1, -99510, 99550);
    show("after the first part");
    printf("save: %" PRIu32 "\n", mezhtolik_save(area, MEZHTOLIK_AREA, block, sizeof block));
    measure(1, -99510, 99640);
    show("after the second part");
    measure(2, -99510, 99640);
    show("after the third part");
    printf("load: %" PRIu32 "\n", mezhtolik_load(area, MEZHTOLIK_AREA, block, sizeof block));
    show("after the load");
    return 0;
}
