/*
 * The stack that each call takes: bytes between the caller's stack pointer and the lowest byte that the call wrote, on a painted stack of its own. The
 * inputs lead each call through its kinds, branches and refusals; the most of all counts. x86-64.
 */
#define _GNU_SOURCE
#include <stdint.h>
#include <stdio.h>
#include <stdlib.h>
#include <string.h>
#include <sys/mman.h>
#include <ucontext.h>

#include "mezhtolik.h"

#define STACK ((size_t)1 << 20)
#define LENGTH(a) (sizeof(a) / sizeof((a)[0]))

static unsigned char *stack;
static ucontext_t back, there;

/* Where the stack pointer stood just before the call. */
static uintptr_t entry;
#define ENTER() __asm__ volatile("mov %%rsp, %0" : "=m"(entry) : : "memory")

static int32_t area[MEZHTOLIK_AREA], calibrated[MEZHTOLIK_AREA], results[MEZHTOLIK_RESULTS];
static int64_t arguments[MEZHTOLIK_TOOL_ARGUMENTS];
static float reports[MEZHTOLIK_REPORTS];
static uint8_t bytes[MEZHTOLIK_BLOCK];

static void fresh(void)
{
    ENTER();
    mezhtolik_fresh(area, MEZHTOLIK_AREA);
}

static void set_empirical(void)
{
    ENTER();
    mezhtolik_set_empirical(area, MEZHTOLIK_AREA, arguments[0], arguments[1]);
}

static void set_wear(void)
{
    ENTER();
    mezhtolik_set_wear(area, MEZHTOLIK_AREA, arguments[0], arguments[1], arguments[2]);
}

static void set_offset(void)
{
    ENTER();
    mezhtolik_set_offset(area, MEZHTOLIK_AREA, arguments[0], arguments[1], arguments[2], arguments[3]);
}

static void calibrate(void)
{
    ENTER();
    mezhtolik_calibrate(area, MEZHTOLIK_AREA, arguments[0], arguments[1], arguments[2], arguments[3], arguments[4], arguments[5], arguments[6]);
}

static void calibrate_report(void)
{
    ENTER();
    mezhtolik_calibrate_report(area, MEZHTOLIK_AREA, arguments[0], arguments[1], arguments[2], arguments[3], reports[0], reports[1], reports[2], arguments[5],
                               arguments[6]);
}

static void probe_status(void)
{
    ENTER();
    mezhtolik_probe_status(area, MEZHTOLIK_AREA, arguments[0]);
}

static void measure_tool(void)
{
    ENTER();
    mezhtolik_measure_tool(area, MEZHTOLIK_AREA, arguments, MEZHTOLIK_TOOL_ARGUMENTS, results, MEZHTOLIK_RESULTS, 0);
}

static void measure_zero(void)
{
    ENTER();
    mezhtolik_measure_zero(area, MEZHTOLIK_AREA, arguments, MEZHTOLIK_ZERO_ARGUMENTS, results, MEZHTOLIK_RESULTS, 0);
}

static void measure_tool_readings(void)
{
    ENTER();
    mezhtolik_measure_tool_readings(area, MEZHTOLIK_AREA, arguments, MEZHTOLIK_TOOL_ARGUMENTS, reports, MEZHTOLIK_REPORTS, 15, results, MEZHTOLIK_RESULTS, 0);
}

static void measure_zero_readings(void)
{
    ENTER();
    mezhtolik_measure_zero_readings(area, MEZHTOLIK_AREA, arguments, MEZHTOLIK_ZERO_ARGUMENTS, reports, MEZHTOLIK_REPORTS, 15, results, MEZHTOLIK_RESULTS, 0);
}

static void load(void)
{
    ENTER();
    mezhtolik_load(area, MEZHTOLIK_AREA, bytes, MEZHTOLIK_BLOCK);
}

static void save(void)
{
    ENTER();
    mezhtolik_save(area, MEZHTOLIK_AREA, bytes, MEZHTOLIK_BLOCK);
}

static const uint8_t job[] = "C,1,1,0,0,-500,0,1000\nE,1,5\nW,1,2,3\nO,1,2,3,4\nE,1,007\nE,21,0\n"
                             "T,3,1,1,0,200000,0,0,-99510,99550,0,0,4,0,2,5,20,100,150,-150,300,1000\n"
                             "T,1,1,1,0,200000,0,0,-99510,99640,-99510,99640,4,0,2,5,20,100,150,-150,300,1000\n"
                             "T,0,1,3,0,200000,0,0,199510,0,0,0,4,1,2,5,20,100,150,-150,300,1000\n"
                             "G,1,1,1,0,200000,0,0,c11f374c,411f6c8b,c11f374c,411f6c8b,4,0,2,5,20,100,150,-150,300,1000\n"
                             "G,0,1,3,0,200000,0,0,7fc00000,00000000,00000000,00000000,4,1,2,5,20,100,150,-150,300,1000\n"
                             "Z,100,1,3,1,200000,0,0,200510,0,0,0,1,1000\n"
                             "Z,102,1,1,0,200000,0,0,-100500,100500,-100500,100500,1,1000\n";
static uint8_t output[40 * 13];

static void run_job(void)
{
    ENTER();
    mezhtolik_run_job(area, MEZHTOLIK_AREA, job, sizeof job - 1, output, sizeof output);
}

/* One call on a stack of this paint. */
static size_t depth(void (*call)(void), int paint)
{
    size_t i = 0;

    memset(stack, paint, STACK);
    if (getcontext(&there) != 0) {
        perror("getcontext");
        exit(1);
    }
    there.uc_stack.ss_sp = stack;
    there.uc_stack.ss_size = STACK;
    there.uc_link = &back;
    makecontext(&there, call, 0);
    swapcontext(&back, &there);
    while (stack[i] == paint) {
        i++;
    }
    return (size_t)(entry - (uintptr_t)(stack + i));
}

/* The most of two paints, as a call may write the one that is there. */
static size_t most(size_t known, void (*call)(void))
{
    static const int paints[] = {0xa5, 0x3c};
    size_t i, found;

    for (i = 0; i < LENGTH(paints); i++) {
        memcpy(area, calibrated, sizeof area);
        found = depth(call, paints[i]);
        known = found > known ? found : known;
    }
    return known;
}

/* What a float box reports for raws in u: the same on each axis. */
static void report(const int64_t *raws, size_t count)
{
    size_t i;

    for (i = 0; i < 3 * count; i++) {
        reports[i] = (float)raws[i / 3] / 10000.0f;
    }
}

/* A setting, calibration or status read: numbers that are and are not, values in and out of range. */
static size_t by_numbers(void (*call)(void))
{
    static const int64_t values[] = {0, 1, 3, 500, 40000000, INT64_MIN};
    size_t i, j, known = 0;

    for (i = 0; i < LENGTH(values); i++) {
        for (j = 0; j < LENGTH(values); j++) {
            memset(arguments, 0, sizeof arguments);
            arguments[0] = values[i];
            arguments[1] = arguments[4] = values[j];
            arguments[6] = 1000;
            report(arguments + 4, 1);
            known = most(known, call);
        }
    }
    return known;
}

/* A measurement of every kind, axis and direction, with deviations for every branch and for refusals. */
static size_t by_parts(void (*call)(void), int64_t kind, int zero)
{
    static const int64_t deviations[] = {0, 50, 99, 150, -150, 400, 2000, -3000000, 20000000};
    size_t i, known = 0;
    int64_t axis, turn;

    for (axis = 0; axis <= 3; axis++) {
        for (turn = 0; turn < 4; turn++) {
            for (i = 0; i < LENGTH(deviations); i++) {
                const int64_t high = 100000 + deviations[i];
                const int64_t tool[] = {1, 0, turn, 5, 20, 100, 150, -150, 300, 1000};
                const int64_t common[] = {kind, 1 + turn / 3, axis, turn % 2, kind % 100 == 0 ? high : 200000, 0, 0, -100000, high, -100000, high};

                memset(arguments, 0, sizeof arguments);
                memcpy(arguments, common, sizeof common);
                memcpy(arguments + LENGTH(common), tool, sizeof tool);
                if (zero) {
                    arguments[MEZHTOLIK_ARG_ZERO_TSA] = 1000;
                }
                report(arguments + MEZHTOLIK_ARG_R1, 4);
                known = most(known, call);
            }
        }
    }
    return known;
}

static size_t measuring(void (*call)(void), int zero)
{
    size_t known = 0, found;
    int64_t kind;

    for (kind = 0; kind <= 5; kind++) {
        found = by_parts(call, (zero ? 100 : 0) + kind, zero);
        known = found > known ? found : known;
    }
    return known;
}

static void show(const char *name, size_t found)
{
    printf("  %-21s %6zu bytes\n", name, found);
}

static void prepare(void)
{
    int64_t axis;

    stack = mmap(NULL, STACK, PROT_READ | PROT_WRITE, MAP_PRIVATE | MAP_ANONYMOUS, -1, 0);
    if (stack == MAP_FAILED) {
        perror("mmap");
        exit(1);
    }
    mezhtolik_fresh(calibrated, MEZHTOLIK_AREA);
    for (axis = 1; axis <= 3; axis++) {
        mezhtolik_calibrate(calibrated, MEZHTOLIK_AREA, 1, axis, 0, 0, 0, 0, 0);
        mezhtolik_calibrate(calibrated, MEZHTOLIK_AREA, 1, axis, 1, 0, 0, 0, 0);
    }
}

int main(void)
{
    prepare();
    show("fresh", most(0, fresh));
    show("set_empirical", by_numbers(set_empirical));
    show("set_wear", by_numbers(set_wear));
    show("set_offset", by_numbers(set_offset));
    show("calibrate", by_numbers(calibrate));
    show("calibrate_report", by_numbers(calibrate_report));
    show("probe_status", by_numbers(probe_status));
    show("measure_tool", measuring(measure_tool, 0));
    show("measure_tool_readings", measuring(measure_tool_readings, 0));
    show("measure_zero", measuring(measure_zero, 1));
    show("measure_zero_readings", measuring(measure_zero_readings, 1));
    show("load", most(0, load));
    show("save", most(0, save));
    show("run_job", most(0, run_job));
    return 0;
}
