/* Fullerecru: a proved look-ahead speed planner for three-axis milling tables.
 *
 * Link with libfullerecru.a or libfullerecru.so, for x86-64 Linux (ELF, System V calls); `make lib`
 * makes both, `make install` installs them with this header. The library allocates nothing and keeps
 * nothing between calls: all that it works on is lent by the caller. Of the C library it calls memset
 * and memcpy. It has at most 128 bytes of read-only data. A call needs under 1 kB of stack,
 * fullerecru_replay under 8 kB, fullerecru_plan_tape and fullerecru_text under 34 kB,
 * fullerecru_report_add, fullerecru_held_by and fullerecru_list_tape under 180 kB.
 *
 * Where it may run: in a process or thread of Linux. The code uses SSE registers, and memory below
 * the stack pointer (the red zone of System V calls). So it is not for a kernel, and not for an
 * interrupt handler that does not save the one and keep off the other.
 *
 * Units: lengths in µm, speeds in µm/s, squared speeds in (µm/s)², accelerations in µm/s², the
 * tick in microseconds. Every quantity is a whole number, but for the doubles of a host's orders, in
 * mm and mm/s.
 *
 * Answers: every function but fullerecru_version, fullerecru_word, fullerecru_told,
 * fullerecru_host_fresh, fullerecru_report_fresh and fullerecru_position returns 0 where the call is
 * accepted, else the number of its refusal (see below). Where several refusals hold, the one given is
 * the first in the order that stands at the function. A refused call changes nothing that was lent, but
 * for the place that tells where a tape or a text is at fault (fullerecru_plan_tape,
 * fullerecru_list_tape, fullerecru_report_add, fullerecru_held_by, fullerecru_text). Any numbers,
 * doubles and bytes are answered: the ranges below are checked, not required.
 *
 * What the model leaves open: the acceleration limits hold along each block; at a junction the
 * velocity may step by the corner jump J and, since lengths are rounded down, by somewhat more: with
 * lengths L and L' in µm the square of the step is at most J² + 2 × v² × (1/L + 1/L'), and a small turn
 * may have no cap at all. Short chords make many such steps: on a circle whose chords come without
 * their radius, v²/R can pass the acceleration limits many times. With the radius, v²/R is below
 * 8 × E / T² (chord tolerance E, tick T). Give each chord its radius, and choose 8 × E / T² at most the
 * acceleration limit and J at most acceleration limit × tick. T is used in that rule alone, so where
 * the drive's tick is too short for it, give a longer one.
 *
 * Between ticks: a servo loop works out where the table is in a block that was handed out. At way s
 * along it, from 0 to its length, each axis is at the block's start + move * s / length, with the
 * length handed out, which is rounded down: with that one the axes keep their limits as the plan
 * judged them, and s = length is the block's end. The squared speed there is the least of
 * entry + 2 * a * s, peak, and exit + 2 * a * (length - s), a the acceleration handed out. By time: it
 * speeds up for (sqrt(peak) - sqrt(entry)) / a and brakes for (sqrt(peak) - sqrt(exit)) / a seconds,
 * s growing by v * t + a * t * t / 2 and by v * t - a * t * t / 2, and runs what is left of the length at
 * sqrt(peak). examples/c/servo.c is such a loop.
 *
 * Feed override, feed hold and abort are not in the planner; a block that was handed out stays as it
 * is. What to do instead:
 * - Override below 100 % and hold: let the clock of the servo loop run slower, by a factor q from 1
 *   down to 0, which is a hold. Speeds become q and accelerations q * q times the plan's, so all limits
 *   are kept while q is steady. While it changes, the path's acceleration has v * q' more, v the plan's
 *   speed and q' the change of q in a second. The plan may use the whole acceleration of an axis, so
 *   keep a reserve r: give fullerecru_fresh accelerations lower by r than the axes bear, and let q
 *   change by at most r / v in a second.
 * - Override above 100 %: add later blocks with a higher feed. Blocks held keep theirs.
 * - Abort: add no more and take what is held: the plan ends at rest with the last block. To leave the
 *   path at once, brake by the drives' own means, then make the planner fresh, since it begins at
 *   rest, and begin from where the table stands.
 *
 * Lent memory: a pointer must not be null and must be aligned as its type asks (8 bytes for the
 * lists of numbers and doubles, 1 for bytes). Behind it must be as many items as the array's size
 * or the count beside it says. The lists lent to one call must not overlap where one of them is
 * written.
 *
 * Threads: there is no shared state. Calls may run at the same time if they are lent different
 * memory; a planner's memory, a host's and a report's are used by one call at a time (several
 * fullerecru_told, fullerecru_shown and fullerecru_position may read them together).
 */
#ifndef FULLERECRU_H
#define FULLERECRU_H

#include <stddef.h>
#include <stdint.h>

#ifdef __cplusplus
extern "C" {
#endif

/* The version of this header, and as one number, 1,000,000 * major + 1,000 * minor + patch. That of the
 * library is told by fullerecru_version: they are made for each other where the two numbers are the
 * same. */
#define FULLERECRU_VERSION_TEXT "0.12.0"
#define FULLERECRU_VERSION 12000

enum {
    /* Numbers of 64 bits in a planner's memory. */
    FULLERECRU_NUMBERS = 848,
    /* Most blocks that a planner holds. */
    FULLERECRU_PLACES = 64,
    /* Numbers of a machine's limits. */
    FULLERECRU_LIMITS = 9,
    /* Bytes of loaded torque steps. */
    FULLERECRU_STEPS = 8,
    /* Moves of a block. */
    FULLERECRU_MOVES = 3,
    /* Numbers of a block given out, beside its moves. */
    FULLERECRU_GIVEN = 11,
    /* Numbers of a record read, beside its moves: feed, radius, mark. */
    FULLERECRU_RECORD = 3,
    /* Numbers of 64 bits in a host's memory; doubles of a point. */
    FULLERECRU_HOST = 4,
    FULLERECRU_POINT = 3,
    /* Numbers of 64 bits in a report's memory; figures of a tape; most tapes that a report accepts. */
    FULLERECRU_REPORT = 8,
    FULLERECRU_FIGURES = 7,
    FULLERECRU_MOST_TAPES = 100,
    /* Numbers of a row of a tape's list: those of a block given out, and two caps. */
    FULLERECRU_LISTED = 13,
    /* Bytes of the limits and of each record on tape. */
    FULLERECRU_LIMITS_BYTES = 24,
    FULLERECRU_RECORD_BYTES = 16,
    /* Most blocks and most bytes of a tape. */
    FULLERECRU_MOST_BLOCKS = 2048,
    FULLERECRU_MOST_TAPE = 32792,
    /* Bytes of each call of a trace. */
    FULLERECRU_CALL_BYTES = 28,
    /* Numbers of the row that answers a call of a trace. */
    FULLERECRU_ROW = 15,
    /* Numbers of the list that a replay's plan is written in: FULLERECRU_PLACES + 1. */
    FULLERECRU_PLAN = 65
};

/* Where each number stands in the lists that are lent. */

/* Limits: accelerations, µm/s²; speeds, µm/s; corner jump, µm/s; chord tolerance, µm; tick, µs. */
enum fullerecru_limit {
    FULLERECRU_LIMIT_ACCEL_X = 0,
    FULLERECRU_LIMIT_ACCEL_Y = 1,
    FULLERECRU_LIMIT_ACCEL_Z = 2,
    FULLERECRU_LIMIT_SPEED_X = 3,
    FULLERECRU_LIMIT_SPEED_Y = 4,
    FULLERECRU_LIMIT_SPEED_Z = 5,
    FULLERECRU_LIMIT_CORNER_JUMP = 6,
    FULLERECRU_LIMIT_CHORD_TOLERANCE = 7,
    FULLERECRU_LIMIT_TICK = 8
};

/* Numbers of a block given out by fullerecru_take, and of a row by fullerecru_list_tape: feed, µm/s;
 * radius, µm; mark; length, µm; acceleration, µm/s²; entry, exit and peak, squared speeds, (µm/s)²;
 * lengths run speeding up, at the peak and braking, µm. (planlist writes entry, peak, exit: here exit
 * comes before peak.) A record that is read has the first three. A row of a tape has two more: the
 * cap of the block, the greatest squared speed that its feed, the axes and the chord rule allow in it,
 * and the cap of the junction where it begins, which also the corner and the block before it have a part
 * in, (µm/s)². */
enum fullerecru_given {
    FULLERECRU_GIVEN_FEED = 0,
    FULLERECRU_GIVEN_RADIUS = 1,
    FULLERECRU_GIVEN_MARK = 2,
    FULLERECRU_GIVEN_LENGTH = 3,
    FULLERECRU_GIVEN_ACCEL = 4,
    FULLERECRU_GIVEN_ENTRY = 5,
    FULLERECRU_GIVEN_EXIT = 6,
    FULLERECRU_GIVEN_PEAK = 7,
    FULLERECRU_GIVEN_UP = 8,
    FULLERECRU_GIVEN_CRUISE = 9,
    FULLERECRU_GIVEN_DOWN = 10,
    FULLERECRU_LISTED_CAP = 11,
    FULLERECRU_LISTED_JUNCTION_CAP = 12
};

/* The row that answers a call of a trace: the number on the display; moves X, Y, Z, each of which a
 * cast to int32_t makes signed; then the numbers of a block given out, enum fullerecru_given from
 * FULLERECRU_ANSWER_GIVEN on. */
enum fullerecru_answer {
    FULLERECRU_ANSWER_NUMBER = 0,
    FULLERECRU_ANSWER_MOVE_X = 1,
    FULLERECRU_ANSWER_MOVE_Y = 2,
    FULLERECRU_ANSWER_MOVE_Z = 3,
    FULLERECRU_ANSWER_GIVEN = 4
};

/* Figures of a tape, and of all tapes of a report behind its first number, which is how many tapes
 * were accepted: blocks; total length, µm; greatest peak, a squared speed, (µm/s)²; inner junctions
 * held by feed or axis, corner, chord rule and reach. */
enum fullerecru_figure {
    FULLERECRU_FIGURE_BLOCKS = 0,
    FULLERECRU_FIGURE_LENGTH = 1,
    FULLERECRU_FIGURE_PEAK = 2,
    FULLERECRU_FIGURE_FEED = 3,
    FULLERECRU_FIGURE_CORNER = 4,
    FULLERECRU_FIGURE_CHORD = 5,
    FULLERECRU_FIGURE_REACH = 6,
    FULLERECRU_REPORT_TAPES = 0,
    FULLERECRU_REPORT_ALL = 1
};

/* What held an inner junction of a tape: the feed or an axis, the corner, the chord rule, or the
 * reach of the blocks around it. */
enum fullerecru_held {
    FULLERECRU_HELD_BY_FEED = 0,
    FULLERECRU_HELD_BY_CORNER = 1,
    FULLERECRU_HELD_BY_CHORD = 2,
    FULLERECRU_HELD_BY_REACH = 3
};

/* The numbers on the display. */
enum fullerecru_refusal {
    FULLERECRU_ACCEPTED = 0,
    /* a machine limit outside its range, or a zero bit of the tape's limits set */
    FULLERECRU_REFUSED_LIMITS = 1,
    /* all three moves 0 */
    FULLERECRU_REFUSED_STILL = 2,
    /* a move beyond ±1,000,000 µm */
    FULLERECRU_REFUSED_LONG = 3,
    /* feed 0, or above 1,000,000 µm/s */
    FULLERECRU_REFUSED_FEED = 4,
    /* radius above 10,000,000 µm */
    FULLERECRU_REFUSED_RADIUS = 5,
    /* mark above 2,097,151 */
    FULLERECRU_REFUSED_MARK = 6,
    /* 64 blocks held */
    FULLERECRU_REFUSED_FULL = 7,
    /* take with none held */
    FULLERECRU_REFUSED_EMPTY = 8,
    /* tape under 24 bytes, or its rest no multiple of 16; a trace likewise, by 28; for the limits
     * or one record read or written alone, and for the records of a text, fewer bytes lent than it
     * needs */
    FULLERECRU_REFUSED_RAGGED = 9,
    /* tape longer than 32,792 bytes; a tape reported after 100 accepted; a text's block past 2,048 */
    FULLERECRU_REFUSED_MANY = 10,
    /* lent list of speeds not exactly one longer than the blocks; a replay's list, a tape's, or that
     * of what held a tape's junctions, not of its size */
    FULLERECRU_REFUSED_LIST = 11,
    /* in a text, any character but a space outside a word, or a word that is not listed or stands
     * on its line already */
    FULLERECRU_REFUSED_WORD = 12,
    /* in a text, a word's number that is badly formed */
    FULLERECRU_REFUSED_NUMBER = 13,
    /* loaded torque steps not of eight bytes, out of range or rising */
    FULLERECRU_REFUSED_STEPS = 14,
    /* in an order, a double that is not finite, or a coordinate less its offset that is not */
    FULLERECRU_REFUSED_NOT_FINITE = 15,
    /* in an order, a rounded value beyond 1,000,000,000 either way, or below 0 for speed or radius */
    FULLERECRU_REFUSED_BEYOND = 16
};

/* The word of a number on the display, as "ragged" of 9; "accepted" of 0, and "unknown" of a number that
 * is none of them. */
static inline const char *fullerecru_word(uint64_t number)
{
    switch (number) {
    case FULLERECRU_ACCEPTED: return "accepted";
    case FULLERECRU_REFUSED_LIMITS: return "limits";
    case FULLERECRU_REFUSED_STILL: return "still";
    case FULLERECRU_REFUSED_LONG: return "long";
    case FULLERECRU_REFUSED_FEED: return "feed";
    case FULLERECRU_REFUSED_RADIUS: return "radius";
    case FULLERECRU_REFUSED_MARK: return "mark";
    case FULLERECRU_REFUSED_FULL: return "full";
    case FULLERECRU_REFUSED_EMPTY: return "empty";
    case FULLERECRU_REFUSED_RAGGED: return "ragged";
    case FULLERECRU_REFUSED_MANY: return "many";
    case FULLERECRU_REFUSED_LIST: return "list";
    case FULLERECRU_REFUSED_WORD: return "word";
    case FULLERECRU_REFUSED_NUMBER: return "number";
    case FULLERECRU_REFUSED_STEPS: return "steps";
    case FULLERECRU_REFUSED_NOT_FINITE: return "not finite";
    case FULLERECRU_REFUSED_BEYOND: return "beyond";
    default: return "unknown";
    }
}

/* The version of the library, as FULLERECRU_VERSION. */
uint64_t fullerecru_version(void);

/* Torque steps, where a function takes a pointer steps and steps_count: the percent of the
 * acceleration that the motors give at block speeds up to 125,000, 250,000, ... 1,000,000 µm/s, a
 * byte for each of the eight steps. They are accepted if each is 1 to 100 and none exceeds the one
 * before it. A count of 0 loads none, and the built-in steps serve: 100, 100, 90, 80, 70, 60, 50, 40.
 * FULLERECRU_BUILT_IN stands for pointer and count of none, as in
 * fullerecru_fresh(memory, limits, FULLERECRU_BUILT_IN); the pointer must not be null there either.
 * The bytes are read during the call only. */
#ifdef __cplusplus
#define FULLERECRU_BUILT_IN reinterpret_cast<const uint8_t *>(""), static_cast<size_t>(0)
#else
#define FULLERECRU_BUILT_IN (const uint8_t *)"", (size_t)0
#endif

/* The planner: 64 places in memory of the caller, who keeps its FULLERECRU_NUMBERS numbers (6,784
 * bytes) from call to call. These functions alone write them, and only those of one version: what the
 * numbers mean may change with the minor version. */

/* Makes a fresh planner: no block held, committed speed 0. The memory need not be initialised.
 *
 * limits: acceleration of X, Y, Z, 1 to 20,000,000 µm/s²; speed of X, Y, Z, 1 to 1,000,000 µm/s;
 * corner jump, 1 to 1,000,000 µm/s; chord tolerance, 1 to 1,000 µm; tick, 100 to 10,000 µs.
 * steps: the torque steps, which stay the planner's until it is made fresh again.
 *
 * Refuses by 1, then 14. Accepted, it writes the memory. */
uint64_t fullerecru_fresh(uint64_t memory[FULLERECRU_NUMBERS],
                          const uint64_t limits[FULLERECRU_LIMITS], const uint8_t *steps,
                          size_t steps_count);

/* Adds a block behind those held.
 *
 * x, y, z: signed moves, -1,000,000 to 1,000,000 µm, not all 0. feed: 1 to 1,000,000 µm/s. radius
 * of the curve that the block is a chord of: 0 to 10,000,000 µm, 0 for no curve. mark: a label of
 * the caller's, 0 to 2,097,151.
 *
 * The corner between two blocks is judged by their lengths in whole µm, rounded down; a small turn may
 * have no cap ("What the model leaves open" above), as (1,1,1) then (1,1,-1).
 *
 * Refuses by 2, 3, 4, 5, 6, 7 in that order. Accepted, it writes the memory. */
uint64_t fullerecru_add(uint64_t memory[FULLERECRU_NUMBERS], int64_t x, int64_t y, int64_t z,
                        uint64_t feed, uint64_t radius, uint64_t mark);

/* Takes the first block out and gives it to the caller. The speed at its end becomes the
 * committed one: every later plan begins with it. Take as late as the loop allows: the plan ends at
 * rest with the last block held, so a block taken with none behind it ends at rest, whatever is added
 * later, and with few behind it may end slower than it could.
 *
 * moves: X, Y, Z, µm. numbers: enum fullerecru_given without the two caps. The lengths run speeding
 * up, at the peak and braking are the ramp, and add up to the length. The length is rounded down to
 * whole µm. The lengths of speeding up and of braking go to the nearest µm, an exact half down for
 * speeding up and up for braking; the part at the peak is what they leave of the length. So they are
 * off what the squared speeds say by at most half a µm, and the part at the peak by less than 1 µm. A
 * servo loop interpolates from entry, peak, exit and acceleration ("Between ticks" above).
 *
 * Refuses by 8. Accepted, it writes the memory, moves and numbers. */
uint64_t fullerecru_take(uint64_t memory[FULLERECRU_NUMBERS], int64_t moves[FULLERECRU_MOVES],
                         uint64_t numbers[FULLERECRU_GIVEN]);

/* Tells how many blocks are held, 0 to 64. Refuses nothing and writes nothing. */
uint64_t fullerecru_told(const uint64_t memory[FULLERECRU_NUMBERS]);

/* Shows the plan: the squared speed, (µm/s)², at each junction of the blocks held, from the
 * committed one at the first to 0 at the last. count must be the number told + 1. It is worked out
 * at each call, by two passes over the blocks held; a take has no need of it.
 *
 * Refuses by 11. Accepted, it writes the count numbers of list; the planner stays as it is. */
uint64_t fullerecru_shown(const uint64_t memory[FULLERECRU_NUMBERS], uint64_t *list, size_t count);

/* The tape: 24 bytes of limits, then 16 bytes for each block. Fields are packed without gaps, most
 * significant bit first. Limits: acceleration X, Y, Z (25 bits each), speed X, Y, Z (20 each), corner
 * jump (20), chord tolerance (10), tick (14), 13 zero bits. Record: move X, Y, Z in two's complement
 * (21 each), feed (20), radius (24), mark (21). */

/* Reads limits, in the order of fullerecru_fresh, from the first 24 bytes; later bytes play no
 * part.
 *
 * Refuses by 9, then 1. Accepted, it writes limits. */
uint64_t fullerecru_read_limits(const uint8_t *bytes, size_t count,
                                uint64_t limits[FULLERECRU_LIMITS]);

/* Writes limits into the first 24 of the lent bytes.
 *
 * Refuses by 1, then 9. Accepted, it writes those 24 bytes and no other. */
uint64_t fullerecru_write_limits(const uint64_t limits[FULLERECRU_LIMITS], uint8_t *bytes,
                                 size_t count);

/* Reads one block from the first 16 bytes; later bytes play no part. moves: X, Y, Z, µm. numbers:
 * feed, µm/s; radius, µm; mark.
 *
 * Refuses by 9, then 2, 3, 4, 5 in that order (every mark of a record is in its range). Accepted,
 * it writes moves and numbers. */
uint64_t fullerecru_read_record(const uint8_t *bytes, size_t count,
                                int64_t moves[FULLERECRU_MOVES],
                                uint64_t numbers[FULLERECRU_RECORD]);

/* Writes one block, fields as for fullerecru_add, into the first 16 of the lent bytes: for record
 * k, from 0, lend the tape from byte 24 + 16 * k on.
 *
 * Refuses by 2, 3, 4, 5, 6 in that order, then 9. Accepted, it writes those 16 bytes and no
 * other. */
uint64_t fullerecru_write_record(int64_t x, int64_t y, int64_t z, uint64_t feed, uint64_t radius,
                                 uint64_t mark, uint8_t *bytes, size_t count);

/* Plans a whole tape of 0 to 2,048 blocks from rest to rest: the squared speed, (µm/s)², at each
 * junction. steps: the torque steps. junctions, the size of list, must be the number of blocks + 1.
 *
 * Refuses by 10, 9, 1, 14, then by the first record at fault (2, 3, 4, 5), then by 11. place[0] is
 * written by every call: the place of the record at fault, counted from 1, else 0. Accepted, it
 * also writes list. */
uint64_t fullerecru_plan_tape(const uint8_t *tape, size_t count, const uint8_t *steps,
                              size_t steps_count, uint64_t *list, size_t junctions,
                              uint64_t place[1]);

/* Lists a tape that is planned as by fullerecru_plan_tape: for each block, in order, a row of
 * FULLERECRU_LISTED numbers, enum fullerecru_given. The cap of the junction where the first block
 * begins is 0, since a tape begins at rest. numbers, the size of rows, must be FULLERECRU_LISTED for
 * each block.
 *
 * Refuses as fullerecru_plan_tape does, by 11 for that size, and writes place as it does. Accepted, it
 * also writes rows. */
uint64_t fullerecru_list_tape(const uint8_t *tape, size_t count, const uint8_t *steps,
                              size_t steps_count, uint64_t *rows, size_t numbers,
                              uint64_t place[1]);

/* A report says what held tapes back, over up to 100 accepted tapes: eight numbers that the caller
 * keeps from call to call and that these functions alone write. The first is how many tapes were
 * accepted; the others are the figures of all of them, in the order of a tape's (enum
 * fullerecru_figure); the greatest peak is 0 without blocks. Each inner junction counts once, so the
 * four add up to the inner junctions. From a fresh report on no sum is cut; any numbers are answered,
 * and then sums are taken modulo 2^64.
 *
 * Makes a fresh report: no tape was accepted. The memory need not be initialised. */
void fullerecru_report_fresh(uint64_t report[FULLERECRU_REPORT]);

/* Plans a tape as fullerecru_plan_tape does and adds it to the report. figures: the tape's own.
 *
 * Refuses by 10 after 100 accepted tapes, then by 10, 9, 1, 14, then by the first record at fault (2,
 * 3, 4, 5). place[0] is written by every call: the place of the record at fault, counted from 1, else
 * 0. Accepted, it also writes report and figures; a refused tape adds nothing. */
uint64_t fullerecru_report_add(uint64_t report[FULLERECRU_REPORT], const uint8_t *tape, size_t count,
                               const uint8_t *steps, size_t steps_count,
                               uint64_t figures[FULLERECRU_FIGURES], uint64_t place[1]);

/* Tells what held each inner junction of a tape, in order (enum fullerecru_held): a junction whose
 * planned speed equals its cap is held by the first of feed, corner and chord that equals it, any
 * other by the reach. Inner junctions are those between two blocks: junctions, the size of list, must
 * be the number of blocks - 1, or 0 without blocks.
 *
 * Refuses as fullerecru_plan_tape does, and writes place as it does. Accepted, it also writes list. */
uint64_t fullerecru_held_by(const uint8_t *tape, size_t count, const uint8_t *steps,
                            size_t steps_count, uint64_t *list, size_t junctions,
                            uint64_t place[1]);

/* Runs a trace, a list of calls, on a planner of its own. The trace is 24 bytes of limits as on
 * tape, then 28 bytes for each call: seven words of 32 bits, most significant byte first: kind (0
 * is a take, any other an add), moves X, Y, Z in two's complement, feed, radius, mark. A take's
 * other words play no part. steps: the torque steps. numbers, the size of answers, must be
 * FULLERECRU_ROW for each call; junctions, the size of plan, must be FULLERECRU_PLAN.
 *
 * Each call gets a row of FULLERECRU_ROW in answers (enum fullerecru_answer): the number on the
 * display; then, of a block given out, moves X, Y, Z in two's complement of 32 bits and its
 * FULLERECRU_GIVEN numbers; else zeros.
 *
 * Refuses by 9, 1, 14, 11 in that order. Accepted, it writes answers, told[0] (the number of blocks
 * held at the end), and the first told[0] + 1 numbers of plan: the plan of the blocks still
 * held. */
uint64_t fullerecru_replay(const uint8_t *trace, size_t count, const uint8_t *steps,
                           size_t steps_count, uint64_t *answers, size_t numbers, uint64_t *plan,
                           size_t junctions, uint64_t told[1]);

/* Writes the blocks of a program in RS-274 text as tape records, 16 bytes each, from the first byte
 * of records on: with 24 bytes of limits before them they are a tape. Lines end in a line feed, the
 * last perhaps without, and hold the words N, G0, G1, G20, G21, G90, G91, X, Y, Z and F, parted by
 * spaces or not: a capital, an optional sign, 1 to 5 digits, and optionally a point with 1 to 4
 * digits. Each letter but G stands at most once on a line, and so does each of the pairs G0/G1,
 * G20/G21 and G90/G91. G20 counts inches, G21 millimetres; F is per minute. It begins in G21, G90, G1
 * at zero with no feed. A block is the difference of two positions, each rounded to the nearest µm,
 * the half away from zero; a zero difference is none. Its mark is the line's number from 1. size is
 * the number of bytes of records.
 *
 * Refuses line by line by 12 or 13, by 3, 4 or 6 of its block, then by 10, and after all lines by 9.
 * place[0] is written by every call: the number of the line at fault, counted from 1, else 0.
 * Accepted, it also writes the records and blocks[0], the number of blocks. */
uint64_t fullerecru_text(const uint8_t *text, size_t count, uint8_t *records, size_t size,
                         uint64_t blocks[1], uint64_t place[1]);

/* A host gives orders in doubles, each of which becomes a block added to a planner. It keeps the last
 * accepted order's rounded point and how many orders were accepted, in four numbers that are lent to
 * each order beside the planner's memory and that nobody else writes; any numbers are answered as
 * some host's. Only an order that is accepted moves it; fullerecru_add and fullerecru_take do not.
 *
 * Makes a fresh host: its point is zero, and no order was accepted. */
void fullerecru_host_fresh(uint64_t host[FULLERECRU_HOST]);

/* The three sorts of order: rapid to a target, which has feed 1,000,000 µm/s; feed to a target
 * with a speed in mm/s; curve chord to a target with a speed in mm/s and a radius in mm. target
 * and offset, the work offset, are points X, Y, Z in mm. The offset is subtracted from each
 * coordinate in one double operation: the processor must round to nearest and mask floating-point
 * exceptions, as it does where a C program begins. The result times 1,000 is rounded to the
 * nearest whole number, an exact half to the even one, from the double's own bits: 0.0625 mm is 62
 * µm, 0.1875 mm is 188. Speed and radius go the same way without offset. The block goes from the
 * last accepted order's rounded point, at first from zero, to this one's; its mark is the order's
 * place from 1, refused orders not counted.
 *
 * Refuses field by field, X, Y, Z, speed, radius, in each by 15, then 16; then by 2, 3, 4, 5, 6, 7
 * as fullerecru_add does. After 2,097,151 accepted orders there is no mark left, and 6 comes until
 * the host is made fresh. Accepted, it writes memory and host. */
uint64_t fullerecru_rapid(uint64_t memory[FULLERECRU_NUMBERS], uint64_t host[FULLERECRU_HOST],
                          const double target[FULLERECRU_POINT],
                          const double offset[FULLERECRU_POINT]);
uint64_t fullerecru_feed(uint64_t memory[FULLERECRU_NUMBERS], uint64_t host[FULLERECRU_HOST],
                         const double target[FULLERECRU_POINT],
                         const double offset[FULLERECRU_POINT], double speed);
uint64_t fullerecru_curve_chord(uint64_t memory[FULLERECRU_NUMBERS],
                                uint64_t host[FULLERECRU_HOST],
                                const double target[FULLERECRU_POINT],
                                const double offset[FULLERECRU_POINT], double speed, double radius);

/* Writes the last accepted order's rounded point, at first zero, as doubles in µm. Each is exactly
 * that whole number, and none is -0.0. */
void fullerecru_position(const uint64_t host[FULLERECRU_HOST], double point[FULLERECRU_POINT]);

#ifdef __cplusplus
}
#endif

#endif
