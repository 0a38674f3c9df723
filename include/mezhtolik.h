/*
 * Mezhtolik: evaluation core of a touch-probe measuring package.
 *
 * Every call works on an area, MEZHTOLIK_AREA numbers that the caller owns and lends. It holds all records of one package; there is no other state,
 * no heap and no call that can fail in another way than by its refusal. Calls on different areas may run at the same time.
 *
 * Units
 *   u  0.1 um: positions, setpoints, set centres, triggers, limits, empirical values (EV) and mean values (MV)
 *   h  0.05 um: tool wears and zero offsets
 *   A float box reports in millimetres; 1 mm is 10000 u. A float is IEEE 754 binary32.
 *
 * Pointers and lengths
 *   Every pointer is followed by its length, counted in elements of its type and not in bytes. A call takes for granted what it cannot test: a pointer
 *   is not NULL, also where the length is 0; it points to that many elements, which may be read, and written where it is not const; the buffers of one
 *   call do not overlap; nobody else writes them during the call, nor reads those that the call writes. That is all that a call asks of its caller. A
 *   length that is wrong is refused.
 *
 * Any number is allowed as an argument, in the area and in a buffer, and any float, also one that is no number: each gets a result or a refusal.
 *
 * A refusal is the first number that applies, 0 when done (MEZHTOLIK_DONE). A call that is refused leaves the area as it was, number for number.
 * A call that is done writes the numbers of the records that it changes and leaves every other number; a job does what the calls of its lines do, and
 * mezhtolik_fresh writes all numbers. What else a refusal leaves or writes stands at the call.
 */
#ifndef MEZHTOLIK_H
#define MEZHTOLIK_H

#include <stddef.h>
#include <stdint.h>

#ifdef __cplusplus
extern "C" {
#endif

/* ---- the area */

/* How many numbers an area has. An area of another length is MEZHTOLIK_WRONG_AREA to every call. */
#define MEZHTOLIK_AREA 137

/*
 * Where each record stands in the area. All numbers count from 1, as in the calls: probe 1..3, ev and mv 1..20, tool 1..32, offset 1..4, axis 1..3
 * (abscissa, ordinate, applicate), place 1..6. The places of a probe's triggers: axis 1 negative 1, positive 2; axis 2: 3, 4; axis 3: 5, 6.
 *
 * Each record has a range, in which every call keeps it:
 *   trigger  within +-100000 u
 *   status   0..63: bit place - 1 for each direction calibrated
 *   EV, MV   -32768..32767 u
 *   wear     within +-2000000 h
 *   offset   within +-20000000 h on each axis
 *
 * The caller may have written any number to the area. One beyond its range is read like this, by every call:
 *   trigger  as the nearest within its range
 *   status   as the nearest of 0..255, and of that the six low bits: 300 has all six directions, 64 and -1 have none
 *   EV, MV   as the nearest within its range
 *   wear     as it stands: a measurement that would leave the wear that it corrects beyond its range is refused by 9, also where it corrects by 0
 *   offset   as it stands, and the same of each axis that a measurement corrects
 * Such a number stays until a call changes it. A number that a call changes is in its range afterwards: a calibration sets one bit of the status as it is
 * read, and a trigger that it does not replace stays as it stands.
 */
#define MEZHTOLIK_TRIGGER(probe, place) (7 * ((probe) - 1) + (place) - 1)
#define MEZHTOLIK_STATUS(probe) (7 * ((probe) - 1) + 6)
#define MEZHTOLIK_EV(ev) (21 + (ev) - 1)
#define MEZHTOLIK_MV(mv) (41 + (mv) - 1)
#define MEZHTOLIK_RADIUS_WEAR(tool) (61 + 2 * ((tool) - 1))
#define MEZHTOLIK_LENGTH_WEAR(tool) (61 + 2 * ((tool) - 1) + 1)
#define MEZHTOLIK_OFFSET(offset, axis) (125 + 3 * ((offset) - 1) + (axis) - 1)

/* ---- refusals */

enum {
    MEZHTOLIK_DONE = 0,
    MEZHTOLIK_NO_ROOM = 1,          /* a buffer is too short, or a block has not 80 bytes */
    MEZHTOLIK_NO_SUCH_NUMBER = 2,   /* a probe, axis, direction, kind, tool, EV, MV or offset that there is not */
    MEZHTOLIK_OUTSIDE_RANGE = 3,    /* a position, set centre, setpoint, value or k beyond its range; limits of a calibration */
    MEZHTOLIK_WRONG_LIMITS = 4,     /* limits of a measurement that do not rise as they should */
    MEZHTOLIK_UNCALIBRATED = 5,     /* a direction that the measurement needs is not calibrated */
    MEZHTOLIK_NO_WIDTH = 6,         /* a pair whose high surface is not above its low one */
    MEZHTOLIK_BEYOND_TSA = 7,       /* the deviation or change is larger than TSA; a hole given for a shaft does this */
    MEZHTOLIK_BEYOND_TDIF = 8,      /* the deviation is larger than TDIF */
    MEZHTOLIK_LEAVES_RANGE = 9,     /* a trigger, wear or offset would leave its range */
    MEZHTOLIK_MALFORMED_LINE = 10,  /* a line of a job is malformed or has over 200 bytes; only in the answer of that line */
    MEZHTOLIK_EMPTY_JOB = 11,       /* a job of no bytes */
    MEZHTOLIK_WRONG_JOB = 12,       /* a job of over 65536 bytes or over 1000 lines, or whose last line has no line feed */
    MEZHTOLIK_BAD_FLOAT = 13,       /* a float that is used is no number, infinite or beyond +-1000 mm; stands behind 2 and before 3 */
    MEZHTOLIK_WRONG_AREA = 100,     /* the area has not MEZHTOLIK_AREA numbers: every buffer is left */
    MEZHTOLIK_WRONG_ARGUMENTS = 101 /* a measurement's arguments or floats are not as many as they should be: every buffer is left */
};

/* ---- records */

/* Makes the area a fresh package, every record 0. Refusals: 100. */
uint32_t mezhtolik_fresh(int32_t *area, size_t area_length);

/* Sets the empirical value ev (1..20) to value (-32768..32767 u). Refusals: 100; 2 ev; 3 value. */
uint32_t mezhtolik_set_empirical(int32_t *area, size_t area_length, int64_t ev, int64_t value);

/* Sets both wears of a tool (1..32), each within +-2000000 h. Refusals: 100; 2 tool; 3 a wear, and then neither is set. */
uint32_t mezhtolik_set_wear(int32_t *area, size_t area_length, int64_t tool, int64_t radius, int64_t length);

/* Sets the zero offset (1..4) on its three axes, each within +-20000000 h. Refusals: 100; 2 offset; 3 a value, and then none is set. */
uint32_t mezhtolik_set_offset(int32_t *area, size_t area_length, int64_t offset, int64_t v1, int64_t v2, int64_t v3);

/* ---- probes */

/*
 * Calibrates a probe (1..3) on an axis (1..3) in a direction (0 positive, 1 negative). setpoint and raw are within +-10000000 u, and
 * 0 <= tzl <= tsa <= 1000000. The new trigger replaces the old one if it differs from it by more than tzl; the direction counts as calibrated either
 * way. Refusals: 100; 2 probe, axis or direction; 3 positions or limits; 7 it differs by more than tsa; 9 it is beyond +-100000.
 */
uint32_t mezhtolik_calibrate(int32_t *area, size_t area_length, int64_t probe, int64_t axis, int64_t direction, int64_t setpoint, int64_t raw,
                             int64_t tzl, int64_t tsa);

/*
 * The same by a report of a float box, in place of a raw in u: x, y and z in mm, as the box reports them together. The axis picks its float, x, y, z for axes
 * 1, 2, 3; the two others may be anything. Its exact value times 10000, rounded to the nearest u with halves away from zero, is the raw; both zeros give 0.
 * Refusals: those of mezhtolik_calibrate, with 13 behind 2 and before 3: the float of the axis is no number, infinite or beyond +-1000 mm. 1000 mm itself is
 * allowed, on both sides.
 */
uint32_t mezhtolik_calibrate_report(int32_t *area, size_t area_length, int64_t probe, int64_t axis, int64_t direction, int64_t setpoint, float x, float y,
                                    float z, int64_t tzl, int64_t tsa);

/* What a status read answers: bit place - 1 for each direction calibrated, and how many there are. Both are 0 where it is refused. */
typedef struct mezhtolik_status {
    uint32_t refusal;
    uint32_t bits;
    uint32_t count;
} mezhtolik_status;

/* Reads the status of a probe (1..3). Refusals: 100; 2 probe. */
mezhtolik_status mezhtolik_probe_status(const int32_t *area, size_t area_length, int64_t probe);

/* ---- measurements */

/* Kinds: with tool offset, and 100 more with zero offset. */
enum {
    MEZHTOLIK_KIND_PLANE = 0,         /* one surface, on axis 1..3 in its direction */
    MEZHTOLIK_KIND_HOLE = 1,          /* inside, low and high on axes 1 and 2; its diameter is the width on axis 2 */
    MEZHTOLIK_KIND_SHAFT = 2,         /* the same outside */
    MEZHTOLIK_KIND_GROOVE = 3,        /* inside, low and high on axis 1 or 2 */
    MEZHTOLIK_KIND_WEB = 4,           /* the same outside */
    MEZHTOLIK_KIND_ZERO_PLANE = 100,  /* the offset of its axis grows by the deviation, twice as many h as u */
    MEZHTOLIK_KIND_ZERO_HOLE = 101,   /* the offsets of axes 1 and 2 grow by the shift of the centre */
    MEZHTOLIK_KIND_ZERO_SHAFT = 102,  /* the same outside */
    MEZHTOLIK_KIND_ZERO_GROOVE = 103, /* the offset of its axis grows by the shift of the centre */
    MEZHTOLIK_KIND_ZERO_WEB = 104     /* the same outside */
};

/* Directions, of a calibration and of a plane. Inside kinds touch low in the negative direction and high in the positive, outside kinds the reverse. */
enum {
    MEZHTOLIK_POSITIVE = 0, /* the probe moves towards greater positions: surface = raw + trigger */
    MEZHTOLIK_NEGATIVE = 1  /* towards smaller ones: surface = raw - trigger */
};

/* How many arguments a measurement has, and how many numbers it writes to the result array. */
#define MEZHTOLIK_TOOL_ARGUMENTS 21
#define MEZHTOLIK_ZERO_ARGUMENTS 13
#define MEZHTOLIK_RESULTS 42

/*
 * The places of the arguments. Both measurements have the first eleven; tool offset has 11..20 and zero offset 11, 12 after them. A kind uses some of
 * them only; the others may be any number.
 */
enum {
    MEZHTOLIK_ARG_KIND = 0,      /* MEZHTOLIK_KIND_.. */
    MEZHTOLIK_ARG_PROBE = 1,     /* 1..3 */
    MEZHTOLIK_ARG_AXIS = 2,      /* plane 1..3; groove and web 1 or 2 */
    MEZHTOLIK_ARG_DIRECTION = 3, /* plane: MEZHTOLIK_POSITIVE or MEZHTOLIK_NEGATIVE */
    MEZHTOLIK_ARG_SETPOINT = 4,  /* plane: a position; others: a width, 1..10000000 u */
    MEZHTOLIK_ARG_C1 = 5,        /* set centre on axis 1, within +-10000000 u, of kinds that measure a pair on it */
    MEZHTOLIK_ARG_C2 = 6,        /* the same on axis 2 */
    MEZHTOLIK_ARG_R1 = 7,        /* raws, within +-10000000 u: plane one; groove and web low, high; */
    MEZHTOLIK_ARG_R2 = 8,        /* hole and shaft abscissa low, high, ordinate low, high */
    MEZHTOLIK_ARG_R3 = 9,
    MEZHTOLIK_ARG_R4 = 10,

    MEZHTOLIK_ARG_TOOL = 11, /* 1..32 */
    MEZHTOLIK_ARG_EV = 12,   /* 1..20, or 0 for none */
    MEZHTOLIK_ARG_MV = 13,   /* 1..20, or 0 for none */
    MEZHTOLIK_ARG_K = 14,    /* weight of the mean, 1..1000 */
    MEZHTOLIK_ARG_TZL = 15,  /* 0 <= TZL <= TMV <= TDIF <= TSA <= 1000000 u, TMV <= 32767 */
    MEZHTOLIK_ARG_TMV = 16,
    MEZHTOLIK_ARG_TUL = 17, /* TLL <= TUL, both within +-1000000 u */
    MEZHTOLIK_ARG_TLL = 18,
    MEZHTOLIK_ARG_TDIF = 19,
    MEZHTOLIK_ARG_TSA = 20,

    MEZHTOLIK_ARG_OFFSET = 11,  /* zero offset: 1..4 */
    MEZHTOLIK_ARG_ZERO_TSA = 12 /* zero offset: TSA, 0..1000000 u */
};

/* Branches: what a measurement did with the deviation D. */
enum {
    MEZHTOLIK_BRANCH_NONE = 0,        /* refused */
    MEZHTOLIK_BRANCH_WITHIN_TZL = 1,  /* no mean named, |D| at most TZL: corrects nothing */
    MEZHTOLIK_BRANCH_DEVIATION = 2,   /* no mean named, |D| above TZL and at most TMV: corrects by D */
    MEZHTOLIK_BRANCH_MEAN_KEPT = 3,   /* a mean named, |D| at most TMV, the new mean at most TZL in size: it is kept, and nothing is corrected */
    MEZHTOLIK_BRANCH_MEAN = 4,        /* a mean named, |D| at most TMV, the new mean above TZL in size: corrects by it, and the mean becomes 0 */
    MEZHTOLIK_BRANCH_BEYOND_TMV = 5,  /* |D| above TMV: corrects by D, and the mean becomes 0 where one is named */
    MEZHTOLIK_BRANCH_ZERO_OFFSET = 6  /* the zero offset grew */
};

/* Verdicts: how D stands to the tolerance. A verdict stops no correction. */
enum {
    MEZHTOLIK_IN_TOLERANCE = 0, /* from TLL to TUL; also with zero offset and where it is refused */
    MEZHTOLIK_OVERSIZE = 1,     /* above TUL */
    MEZHTOLIK_UNDERSIZE = 2     /* below TLL */
};

/* What a measurement answers. Branch and verdict are 0 where it is refused. */
typedef struct mezhtolik_decision {
    uint32_t refusal;
    uint32_t branch;
    uint32_t verdict;
} mezhtolik_decision;

/*
 * Measure with tool offset and with zero offset. The arguments are MEZHTOLIK_TOOL_ARGUMENTS or MEZHTOLIK_ZERO_ARGUMENTS numbers. The result goes to the
 * MEZHTOLIK_RESULTS numbers of results that begin at place, counted from 0: OVR[0..31], then OVI[0..9]. Every other number of results stays.
 *
 * Refusals: 100; 101; 1 fewer than 42 numbers from place on; 2 numbers; 3 positions, set centres, setpoint and k; 4 limits; 5; 6; 7; 8 (tool offset);
 * 9. 100, 101 and 1 leave results; the others write 42 zeros save OVI[9], which is the refusal.
 */
mezhtolik_decision mezhtolik_measure_tool(int32_t *area, size_t area_length, const int64_t *arguments, size_t arguments_length, int32_t *results,
                                          size_t results_length, size_t place);
mezhtolik_decision mezhtolik_measure_zero(int32_t *area, size_t area_length, const int64_t *arguments, size_t arguments_length, int32_t *results,
                                          size_t results_length, size_t place);

/*
 * The same with reports of a float box for some raws or all. What the box reported for r1 to r4 is lent as MEZHTOLIK_REPORTS floats in mm: x, y, z of r1,
 * then of r2, r3, r4. reported says which raws are reports, as a sum of MEZHTOLIK_REPORTED_..: where the bit of a raw is set, the raw is its report, and the
 * number among the arguments is not looked at; where it is clear, the raw is that number, and its three floats are not looked at. Other bits of reported are
 * not looked at. With none set the call is the one above.
 *
 * The measured axis picks the float of a report: of a plane, groove and web x, y, z for axes 1, 2, 3; of a hole and shaft x for r1 and r2 and y for r3 and
 * r4. It becomes a raw in u as in mezhtolik_calibrate_report. A float that is not picked, and a raw that the kind does not use, may be anything.
 *
 * Refusals: those above; 101 also where the floats are not MEZHTOLIK_REPORTS; and 13 behind 2 and before 3, where a float that is used is no number, infinite
 * or beyond +-1000 mm. 13 writes the results as the numbers around it do.
 */
mezhtolik_decision mezhtolik_measure_tool_readings(int32_t *area, size_t area_length, const int64_t *arguments, size_t arguments_length, const float *reports,
                                                   size_t reports_length, uint32_t reported, int32_t *results, size_t results_length, size_t place);
mezhtolik_decision mezhtolik_measure_zero_readings(int32_t *area, size_t area_length, const int64_t *arguments, size_t arguments_length, const float *reports,
                                                   size_t reports_length, uint32_t reported, int32_t *results, size_t results_length, size_t place);

/* How many floats the reports of a measurement have, and where each stands: raw 1..4, axis 1..3. */
#define MEZHTOLIK_REPORTS 12
#define MEZHTOLIK_REPORT(raw, axis) (3 * ((raw) - 1) + (axis) - 1)

/* Which raws are reports. */
enum {
    MEZHTOLIK_REPORTED_R1 = 1,
    MEZHTOLIK_REPORTED_R2 = 2,
    MEZHTOLIK_REPORTED_R3 = 4,
    MEZHTOLIK_REPORTED_R4 = 8
};

/* Places of the 42 numbers, counted from the place given to the measurement, by their numbers .. */
#define MEZHTOLIK_OVR(n) (n)
#define MEZHTOLIK_OVI(n) (32 + (n))

/*
 * .. and by name. What a kind has not is 0: set centre, centre and shift stand on the axes on which a pair is measured, and what is marked 'tool offset'
 * is 0 with zero offset. Places without a name are always 0.
 */
enum {
    MEZHTOLIK_OVR_SETPOINT = 0,     /* the setpoint, u */
    MEZHTOLIK_OVR_SET_CENTRE_1 = 1, /* the set centre on axis 1, u */
    MEZHTOLIK_OVR_SET_CENTRE_2 = 2, /* on axis 2 */
    MEZHTOLIK_OVR_MEASURED = 4,     /* the measured position, width or diameter less the empirical value, u */
    MEZHTOLIK_OVR_CENTRE_1 = 5,     /* the measured centre on axis 1, h */
    MEZHTOLIK_OVR_CENTRE_2 = 6,     /* on axis 2 */
    MEZHTOLIK_OVR_UPPER_LIMIT = 8,  /* tool offset: setpoint + TUL, u */
    MEZHTOLIK_OVR_LOWER_LIMIT = 12, /* tool offset: setpoint + TLL, u */
    MEZHTOLIK_OVR_DEVIATION = 16,   /* OVR[4] - OVR[0], u: with tool offset D */
    MEZHTOLIK_OVR_SHIFT_1 = 17,     /* centre - 2 * set centre on axis 1, h */
    MEZHTOLIK_OVR_SHIFT_2 = 18,     /* on axis 2 */
    MEZHTOLIK_OVR_CORRECTION = 20,  /* tool offset: the correction c, u */
    MEZHTOLIK_OVR_TZL = 27,         /* tool offset: TZL as given, u */
    MEZHTOLIK_OVR_TSA = 28,         /* TSA as given, u */
    MEZHTOLIK_OVR_TDIF = 29,        /* tool offset: TDIF as given, u */
    MEZHTOLIK_OVR_EMPIRICAL = 30,   /* tool offset: the empirical value, u; 0 where none is named */
    MEZHTOLIK_OVR_MEAN = 31,        /* tool offset: the mean value left in its record, u; 0 where none is named */
    MEZHTOLIK_OVI_CORRECTED = 32,   /* OVI[0]: the number of the tool, or of the zero offset */
    MEZHTOLIK_OVI_CYCLE = 34,       /* OVI[2]: 978 of a plane, 977 of every other kind */
    MEZHTOLIK_OVI_KIND = 35,        /* OVI[3]: the kind */
    MEZHTOLIK_OVI_K = 36,           /* OVI[4]: tool offset: k, also where no mean is named */
    MEZHTOLIK_OVI_PROBE = 37,       /* OVI[5]: the number of the probe */
    MEZHTOLIK_OVI_MV = 38,          /* OVI[6]: tool offset: the number of the mean value, 0 for none */
    MEZHTOLIK_OVI_EV = 39,          /* OVI[7]: tool offset: the number of the empirical value, 0 for none */
    MEZHTOLIK_OVI_TOOL = 40,        /* OVI[8]: tool offset: the number of the tool */
    MEZHTOLIK_OVI_REFUSAL = 41      /* OVI[9]: 0; the refusal where it is refused, and then every other number is 0 */
};

/* ---- memory block */

/* How many bytes the block of all EV and MV has: EV 1..20, then MV 1..20, two bytes each, low byte first, two's complement. */
#define MEZHTOLIK_BLOCK 80

/* Replaces all EV and MV by those of a block. Refusals: 100; 1 unless the block has MEZHTOLIK_BLOCK bytes. */
uint32_t mezhtolik_load(int32_t *area, size_t area_length, const uint8_t *block, size_t block_length);

/*
 * Writes the block of all EV and MV to the first MEZHTOLIK_BLOCK bytes of the buffer and keeps the rest. Refusals: 100; 1 the buffer is shorter. A
 * refusal leaves the buffer.
 */
uint32_t mezhtolik_save(const int32_t *area, size_t area_length, uint8_t *buffer, size_t buffer_length);

/* ---- jobs */

/* The most bytes and lines of a job, and the bytes of output that it needs for each line. */
#define MEZHTOLIK_JOB_LIMIT 65536
#define MEZHTOLIK_LINES_LIMIT 1000
#define MEZHTOLIK_LINE_ROOM 40

/* What a job answers: length is how many bytes of the output it wrote, 0 where it is refused. */
typedef struct mezhtolik_job {
    uint32_t refusal;
    size_t length;
} mezhtolik_job;

/*
 * Runs a job, a text of one call a line (docs/JOBS.md), and writes one line of answer for each: line number, refusal, branch, verdict, deviation (OVR[16])
 * and correction c. A line that is refused changes nothing, and the next one runs. Bytes of the output behind the answers stay.
 *
 * Refusals of the job: 100; 11; 12; 1 the output has less than MEZHTOLIK_LINE_ROOM bytes for each line. A refused job runs no line, and leaves the area
 * and the output.
 */
mezhtolik_job mezhtolik_run_job(int32_t *area, size_t area_length, const uint8_t *job, size_t job_length, uint8_t *output, size_t output_length);

#ifdef __cplusplus
}
#endif

#endif
