/* Feeds a planner as a control does: holds a few blocks ahead, takes the first one when it needs
 * it, and hands its ramp to the servo loop, here one line of print (servo.c has such a loop). Then
 * writes a tape of two blocks, reads it back, plans it and lists it, reports what held that tape and
 * another back, replays a trace of four calls with motors that have torque steps of their own, makes a
 * tape of a program in RS-274 text, and carries out the orders of a host in doubles. Every function of
 * the header is called.
 *
 *     cc -std=c99 -Iinclude examples/c/feed.c target/lib/libfullerecru.a -o target/feed
 */
#include <inttypes.h>
#include <stdio.h>
#include <string.h>

#include "fullerecru.h"

/* Blocks held ahead; a planner has room for FULLERECRU_PLACES. */
enum { AHEAD = 5 };

/* Acceleration of X, Y, Z, µm/s²; speed of X, Y, Z, µm/s; corner jump, µm/s; chord tolerance,
 * µm; tick, µs. */
static const uint64_t MACHINE[FULLERECRU_LIMITS] = {
    200000, 200000, 200000, 1000000, 1000000, 1000000, 2000, 1, 2000,
};

/* Torque steps of other motors: percent of the acceleration, a byte for each step of 125,000 µm/s. */
static const uint8_t MOTORS[FULLERECRU_STEPS] = {50, 50, 45, 40, 35, 30, 25, 20};

/* A row over a mould and a step sideways: moves X, Y, Z, and radius of the curve, µm. */
static const int64_t ROW[][4] = {
    {2000, 0, 0, 0},     {500, 0, 230, 3000},  {500, 0, 140, 3000},  {500, 0, 45, 3000},
    {500, 0, -45, 3000}, {500, 0, -140, 3000}, {500, 0, -230, 3000}, {2000, 0, 0, 0},
    {0, 200, 0, 0},
};
static const size_t BLOCKS = sizeof ROW / sizeof ROW[0];
static const uint64_t FEED = 20000; /* µm/s */

/* Takes the first block and prints what a servo loop needs of it. */
static void take_and_print(uint64_t memory[FULLERECRU_NUMBERS])
{
    int64_t moves[FULLERECRU_MOVES];
    uint64_t numbers[FULLERECRU_GIVEN];
    uint64_t refused = fullerecru_take(memory, moves, numbers);
    if (refused != FULLERECRU_ACCEPTED) {
        printf("take refused by %" PRIu64 "\n", refused);
        return;
    }
    printf("mark %" PRIu64 " move %" PRId64 " %" PRId64 " %" PRId64, numbers[FULLERECRU_GIVEN_MARK],
           moves[0], moves[1], moves[2]);
    printf(" length %" PRIu64 " accel %" PRIu64, numbers[FULLERECRU_GIVEN_LENGTH],
           numbers[FULLERECRU_GIVEN_ACCEL]);
    printf(" entry %" PRIu64 " peak %" PRIu64 " exit %" PRIu64, numbers[FULLERECRU_GIVEN_ENTRY],
           numbers[FULLERECRU_GIVEN_PEAK], numbers[FULLERECRU_GIVEN_EXIT]);
    printf(" up %" PRIu64 " cruise %" PRIu64 " down %" PRIu64 "\n", numbers[FULLERECRU_GIVEN_UP],
           numbers[FULLERECRU_GIVEN_CRUISE], numbers[FULLERECRU_GIVEN_DOWN]);
}

/* Prints a name and the numbers of a list on one line. */
static void print_list(const char *name, const uint64_t *list, size_t count)
{
    printf("%s", name);
    for (size_t i = 0; i < count; i++) {
        printf(" %" PRIu64, list[i]);
    }
    printf("\n");
}

/* Prints the plan of the blocks held: squared speeds at their junctions, (µm/s)². */
static void print_plan(const uint64_t memory[FULLERECRU_NUMBERS])
{
    uint64_t list[FULLERECRU_PLAN];
    size_t junctions = (size_t)fullerecru_told(memory) + 1;
    if (fullerecru_shown(memory, list, junctions) != FULLERECRU_ACCEPTED) {
        return;
    }
    printf("held %zu, ", junctions - 1);
    print_list("plan", list, junctions);
}

/* Runs the row with AHEAD blocks held, then lets the planner run empty. */
static void run_row(void)
{
    uint64_t memory[FULLERECRU_NUMBERS];
    if (fullerecru_fresh(memory, MACHINE, FULLERECRU_BUILT_IN) != FULLERECRU_ACCEPTED) {
        return;
    }
    for (size_t k = 0; k < BLOCKS; k++) {
        if (fullerecru_told(memory) == AHEAD) {
            take_and_print(memory);
        }
        uint64_t refused = fullerecru_add(memory, ROW[k][0], ROW[k][1], ROW[k][2], FEED,
                                          (uint64_t)ROW[k][3], k + 1);
        if (refused != FULLERECRU_ACCEPTED) {
            printf("block %zu refused by %" PRIu64 "\n", k + 1, refused);
        }
    }
    print_plan(memory);
    printf("a block that does not move: refused by %" PRIu64 "\n",
           fullerecru_add(memory, 0, 0, 0, FEED, 0, 0));
    print_plan(memory);
    while (fullerecru_told(memory) != 0) {
        take_and_print(memory);
    }
    take_and_print(memory);
}

/* Writes a tape of the machine's limits and two blocks at a right angle, marks 7 and 8. Returns how
 * many bytes it has, or 0 where one of its parts is refused. */
static size_t write_pair(uint8_t tape[FULLERECRU_MOST_TAPE])
{
    uint8_t *first = tape + FULLERECRU_LIMITS_BYTES;
    uint8_t *second = first + FULLERECRU_RECORD_BYTES;
    uint64_t refused = fullerecru_write_limits(MACHINE, tape, FULLERECRU_LIMITS_BYTES);
    refused |= fullerecru_write_record(1000, 0, 0, FEED, 0, 7, first, FULLERECRU_RECORD_BYTES);
    refused |= fullerecru_write_record(0, 1000, 0, FEED, 0, 8, second, FULLERECRU_RECORD_BYTES);
    return refused == FULLERECRU_ACCEPTED ? (size_t)(second - tape) + FULLERECRU_RECORD_BYTES : 0;
}

/* Prints what a tape of whole records says: its limits, then each block. */
static void print_tape(const uint8_t *tape, size_t count)
{
    uint64_t limits[FULLERECRU_LIMITS];
    uint64_t refused = fullerecru_read_limits(tape, count, limits);
    if (refused != FULLERECRU_ACCEPTED) {
        printf("limits refused by %" PRIu64 "\n", refused);
        return;
    }
    print_list("limits", limits, FULLERECRU_LIMITS);
    for (size_t at = FULLERECRU_LIMITS_BYTES; at < count; at += FULLERECRU_RECORD_BYTES) {
        int64_t moves[FULLERECRU_MOVES];
        uint64_t record[FULLERECRU_RECORD];
        refused = fullerecru_read_record(tape + at, count - at, moves, record);
        if (refused != FULLERECRU_ACCEPTED) {
            printf("record refused by %" PRIu64 "\n", refused);
            return;
        }
        printf("record move %" PRId64 " %" PRId64 " %" PRId64, moves[0], moves[1], moves[2]);
        printf(" feed %" PRIu64 " radius %" PRIu64 " mark %" PRIu64 "\n", record[0], record[1],
               record[2]);
    }
}

/* Plans a tape of whole records from rest to rest and prints its plan, or the refusal. */
static void plan_tape(const uint8_t *tape, size_t count)
{
    uint64_t plan[FULLERECRU_MOST_BLOCKS + 1], place[1];
    size_t blocks = (count - FULLERECRU_LIMITS_BYTES) / FULLERECRU_RECORD_BYTES;
    uint64_t refused =
        fullerecru_plan_tape(tape, count, FULLERECRU_BUILT_IN, plan, blocks + 1, place);
    if (refused != FULLERECRU_ACCEPTED) {
        printf("tape refused by %" PRIu64 " at %" PRIu64 "\n", refused, place[0]);
        return;
    }
    printf("tape of %zu blocks, ", blocks);
    print_list("plan", plan, blocks + 1);
}

/* Writes the pair's tape, reads it back and plans it; then spoils its second block, which no longer
 * moves, and plans it again. */
static void run_tape(void)
{
    uint8_t tape[FULLERECRU_MOST_TAPE];
    size_t count = write_pair(tape);
    if (count == 0) {
        return;
    }
    print_tape(tape, count);
    plan_tape(tape, count);
    memset(tape + count - FULLERECRU_RECORD_BYTES, 0, FULLERECRU_RECORD_BYTES);
    plan_tape(tape, count);
}

/* Lists the pair's tape: a line for each block, with its cap and that of the junction where it begins;
 * then with room for one block only, which is refused. */
static void run_list(void)
{
    enum { PAIR = 2 };
    uint8_t tape[FULLERECRU_MOST_TAPE];
    uint64_t rows[PAIR * FULLERECRU_LISTED], place[1];
    size_t count = write_pair(tape);
    if (fullerecru_list_tape(tape, count, FULLERECRU_BUILT_IN, rows, PAIR * FULLERECRU_LISTED,
                             place) != FULLERECRU_ACCEPTED) {
        return;
    }
    for (size_t k = 0; k < PAIR; k++) {
        const uint64_t *row = rows + FULLERECRU_LISTED * k;
        printf("listed mark %" PRIu64 " peak %" PRIu64, row[FULLERECRU_GIVEN_MARK],
               row[FULLERECRU_GIVEN_PEAK]);
        printf(" cap %" PRIu64 " junction cap %" PRIu64 "\n", row[FULLERECRU_LISTED_CAP],
               row[FULLERECRU_LISTED_JUNCTION_CAP]);
    }
    uint64_t refused = fullerecru_list_tape(tape, count, FULLERECRU_BUILT_IN, rows,
                                            FULLERECRU_LISTED, place);
    printf("listed with too little room: refused by %" PRIu64 ", %s\n", refused,
           fullerecru_word(refused));
}

/* Writes a tape of the machine's limits and the row. Returns how many bytes it has, or 0 where one of
 * its parts is refused. */
static size_t write_row(uint8_t tape[FULLERECRU_MOST_TAPE])
{
    size_t at = FULLERECRU_LIMITS_BYTES;
    uint64_t refused = fullerecru_write_limits(MACHINE, tape, at);
    for (size_t k = 0; k < BLOCKS; k++) {
        refused |= fullerecru_write_record(ROW[k][0], ROW[k][1], ROW[k][2], FEED,
                                           (uint64_t)ROW[k][3], k + 1, tape + at,
                                           FULLERECRU_RECORD_BYTES);
        at += FULLERECRU_RECORD_BYTES;
    }
    return refused == FULLERECRU_ACCEPTED ? at : 0;
}

/* Adds a tape to a report and prints its figures, or the refusal. */
static void report_tape(uint64_t report[FULLERECRU_REPORT], const uint8_t *tape, size_t count)
{
    uint64_t figures[FULLERECRU_FIGURES], place[1];
    uint64_t refused =
        fullerecru_report_add(report, tape, count, FULLERECRU_BUILT_IN, figures, place);
    if (refused != FULLERECRU_ACCEPTED) {
        printf("tape refused by %" PRIu64 " at %" PRIu64 "\n", refused, place[0]);
        return;
    }
    print_list("figures", figures, FULLERECRU_FIGURES);
}

/* Reports on the tape of the row, with what held each of its inner junctions, on the pair's, and on
 * the pair's with a block that does not move, which is refused and adds nothing. */
static void run_report(void)
{
    uint8_t tape[FULLERECRU_MOST_TAPE];
    uint64_t report[FULLERECRU_REPORT], held[FULLERECRU_MOST_BLOCKS], place[1];
    fullerecru_report_fresh(report);
    size_t count = write_row(tape);
    report_tape(report, tape, count);
    if (fullerecru_held_by(tape, count, FULLERECRU_BUILT_IN, held, BLOCKS - 1, place) ==
        FULLERECRU_ACCEPTED) {
        print_list("held by", held, BLOCKS - 1);
    }
    count = write_pair(tape);
    report_tape(report, tape, count);
    memset(tape + count - FULLERECRU_RECORD_BYTES, 0, FULLERECRU_RECORD_BYTES);
    report_tape(report, tape, count);
    printf("%" PRIu64 " tapes, ", report[0]);
    print_list("figures", report + 1, FULLERECRU_FIGURES);
}

/* The calls of a trace, each of seven words: kind (0 takes, 1 adds), moves X, Y, Z, feed, radius,
 * mark. A take too early, the pair's two adds, and a take. */
enum { CALLS = 4, WORDS = FULLERECRU_CALL_BYTES / 4 };
static const uint32_t TRACE[CALLS][WORDS] = {
    {0, 0, 0, 0, 0, 0, 0},
    {1, 1000, 0, 0, 20000, 0, 7},
    {1, 0, 1000, 0, 20000, 0, 8},
    {0, 0, 0, 0, 0, 0, 0},
};

/* Writes the words of the calls, most significant byte first. */
static void write_calls(uint8_t bytes[CALLS * FULLERECRU_CALL_BYTES])
{
    for (size_t k = 0; k < CALLS * WORDS; k++) {
        uint32_t word = TRACE[k / WORDS][k % WORDS];
        for (size_t i = 0; i < 4; i++) {
            bytes[4 * k + i] = (uint8_t)(word >> (24 - 8 * i));
        }
    }
}

/* Replays the trace with the other motors' steps and prints the row that answers each call (its
 * numbers stand in the order that the header gives), the number held and the plan; then with a step
 * too few. */
static void run_trace(void)
{
    uint8_t trace[FULLERECRU_LIMITS_BYTES + CALLS * FULLERECRU_CALL_BYTES];
    uint64_t answers[CALLS * FULLERECRU_ROW], plan[FULLERECRU_PLAN], told[1];
    uint64_t refused = fullerecru_write_limits(MACHINE, trace, sizeof trace);
    write_calls(trace + FULLERECRU_LIMITS_BYTES);
    refused |= fullerecru_replay(trace, sizeof trace, MOTORS, sizeof MOTORS, answers,
                                 CALLS * FULLERECRU_ROW, plan, FULLERECRU_PLAN, told);
    if (refused != FULLERECRU_ACCEPTED) {
        return;
    }
    for (size_t k = 0; k < CALLS; k++) {
        print_list("answer", answers + k * FULLERECRU_ROW, FULLERECRU_ROW);
    }
    printf("held %" PRIu64 ", ", told[0]);
    print_list("plan", plan, (size_t)told[0] + 1);
    refused = fullerecru_replay(trace, sizeof trace, MOTORS, sizeof MOTORS - 1, answers,
                                CALLS * FULLERECRU_ROW, plan, FULLERECRU_PLAN, told);
    printf("a torque step too few: refused by %" PRIu64 "\n", refused);
}

/* 1 mm along X and 1 mm along Y at 20 mm/s, then a quarter of an inch up; and a text whose third
 * line has a space inside a word. */
static const char TEXT[] = "N1 F1200 X1\nN2 Y1\nN3 G0 G20 Z0.25\n";
static const char FAULTY[] = "F60\nX1\nY 2\n";

/* Writes the records of a text behind the machine's limits, reads the tape back and plans it; then
 * has a text refused. */
static void run_text(void)
{
    uint8_t tape[FULLERECRU_MOST_TAPE];
    uint8_t *records = tape + FULLERECRU_LIMITS_BYTES;
    size_t room = sizeof tape - FULLERECRU_LIMITS_BYTES;
    uint64_t blocks[1], place[1];
    uint64_t refused = fullerecru_write_limits(MACHINE, tape, FULLERECRU_LIMITS_BYTES);
    refused |= fullerecru_text((const uint8_t *)TEXT, strlen(TEXT), records, room, blocks, place);
    if (refused != FULLERECRU_ACCEPTED) {
        return;
    }
    size_t count = FULLERECRU_LIMITS_BYTES + FULLERECRU_RECORD_BYTES * (size_t)blocks[0];
    print_tape(tape, count);
    plan_tape(tape, count);
    refused = fullerecru_text((const uint8_t *)FAULTY, strlen(FAULTY), records, room, blocks, place);
    printf("text refused by %" PRIu64 " at %" PRIu64 "\n", refused, place[0]);
}

/* Prints what an order was answered, and where the host is then, µm. */
static void print_order(const char *name, uint64_t refused, const uint64_t host[FULLERECRU_HOST])
{
    double point[FULLERECRU_POINT];
    fullerecru_position(host, point);
    printf("%s %" PRIu64 ", host at %.1f %.1f %.1f\n", name, refused, point[0], point[1], point[2]);
}

/* A rapid, a feed at 20 mm/s and a curve chord of radius 1.5 mm with a work offset; then a point that
 * is too far, and the blocks that the planner holds. */
static void run_orders(void)
{
    static const double OFFSET[FULLERECRU_POINT] = {0.3, 0.1, 0.3};
    static const double START[FULLERECRU_POINT] = {0.1, 0.2, 0.3};
    static const double CORNER[FULLERECRU_POINT] = {1.1, 0.2, 0.3};
    static const double END[FULLERECRU_POINT] = {2.1, 0.6, 0.3};
    static const double FAR[FULLERECRU_POINT] = {2.1, 2e6, 0.3};
    uint64_t memory[FULLERECRU_NUMBERS], host[FULLERECRU_HOST];
    if (fullerecru_fresh(memory, MACHINE, FULLERECRU_BUILT_IN) != FULLERECRU_ACCEPTED) {
        return;
    }
    fullerecru_host_fresh(host);
    print_order("rapid", fullerecru_rapid(memory, host, START, OFFSET), host);
    print_order("feed", fullerecru_feed(memory, host, CORNER, OFFSET, 20.0), host);
    print_order("curve chord", fullerecru_curve_chord(memory, host, END, OFFSET, 20.0, 1.5), host);
    print_order("feed", fullerecru_feed(memory, host, FAR, OFFSET, 20.0), host);
    print_plan(memory);
    while (fullerecru_told(memory) != 0) {
        take_and_print(memory);
    }
}

int main(void)
{
    if (fullerecru_version() != FULLERECRU_VERSION) {
        printf("the library is not that of this header, %s\n", FULLERECRU_VERSION_TEXT);
        return 1;
    }
    run_row();
    run_tape();
    run_list();
    run_report();
    run_trace();
    run_text();
    run_orders();
    return 0;
}
