/* A servo loop: takes block after block from a planner and works out at each tick where the table is, as
 * include/fullerecru.h says ("Between ticks"). Every tenth tick is printed: the time, and X, Y, Z in µm.
 *
 *     cc -std=c99 -Iinclude examples/c/servo.c target/lib/libfullerecru.a -lm -o target/servo
 */
#include <inttypes.h>
#include <math.h>
#include <stdio.h>

#include "fullerecru.h"

enum { AXES = FULLERECRU_MOVES, BLOCKS = 4, EACH = 10 };

/* Accelerations, µm/s²; speeds, µm/s; corner jump, µm/s; chord tolerance, µm; tick, µs. */
static const uint64_t MACHINE[FULLERECRU_LIMITS] = {
    200000, 200000, 200000, 1000000, 1000000, 1000000, 2000, 1, 2000,
};

/* Moves X, Y, Z, µm, and feed, µm/s. */
static const int64_t PATH[BLOCKS][AXES + 1] = {
    {1000, 0, 0, 20000}, {0, 1000, 0, 20000}, {300, 300, 5, 8000}, {2000, -700, 0, 20000},
};

/* A block in hand: its moves, µm; the speeds at its ends and its peak, µm/s; acceleration, µm/s²; length, µm;
 * and how long it speeds up, runs at the peak and brakes, s. */
struct run {
    double move[AXES], entry, peak, exit, accel, length, up, cruise, down;
};

/* Takes the next block; 0 where none is held. */
static int take(uint64_t memory[FULLERECRU_NUMBERS], struct run *r)
{
    int64_t moves[FULLERECRU_MOVES];
    uint64_t numbers[FULLERECRU_GIVEN];
    if (fullerecru_take(memory, moves, numbers) != FULLERECRU_ACCEPTED) {
        return 0;
    }
    for (int axis = 0; axis < AXES; axis++) {
        r->move[axis] = (double)moves[axis];
    }
    r->entry = sqrt((double)numbers[FULLERECRU_GIVEN_ENTRY]);
    r->peak = sqrt((double)numbers[FULLERECRU_GIVEN_PEAK]);
    r->exit = sqrt((double)numbers[FULLERECRU_GIVEN_EXIT]);
    r->accel = (double)numbers[FULLERECRU_GIVEN_ACCEL];
    r->length = (double)numbers[FULLERECRU_GIVEN_LENGTH];
    r->up = (r->peak - r->entry) / r->accel;
    r->down = (r->peak - r->exit) / r->accel;
    double ramps = (r->entry + r->peak) / 2 * r->up + (r->peak + r->exit) / 2 * r->down;
    r->cruise = fmax(0, r->length - ramps) / r->peak;
    return 1;
}

/* The way along a block after t seconds of it, µm. */
static double way(const struct run *r, double t)
{
    if (t < r->up) {
        return r->entry * t + r->accel * t * t / 2;
    }
    double s = (r->entry + r->peak) / 2 * r->up;
    t -= r->up;
    if (t < r->cruise) {
        return s + r->peak * t;
    }
    s += r->peak * r->cruise;
    t -= r->cruise;
    return s + r->peak * t - r->accel * t * t / 2;
}

/* Prints where the table is on the block that began at start, µm. */
static void print_place(double seconds, const double start[AXES], const struct run *r, double s)
{
    printf("%.3f s", seconds);
    for (int axis = 0; axis < AXES; axis++) {
        printf(" %.1f", start[axis] + r->move[axis] * s / r->length);
    }
    printf("\n");
}

int main(void)
{
    uint64_t memory[FULLERECRU_NUMBERS];
    if (fullerecru_version() != FULLERECRU_VERSION ||
        fullerecru_fresh(memory, MACHINE, FULLERECRU_BUILT_IN) != FULLERECRU_ACCEPTED) {
        return 1;
    }
    for (size_t k = 0; k < BLOCKS; k++) {
        uint64_t refused = fullerecru_add(memory, PATH[k][0], PATH[k][1], PATH[k][2],
                                          (uint64_t)PATH[k][3], 0, k + 1);
        if (refused != FULLERECRU_ACCEPTED) {
            printf("block %zu refused: %s\n", k + 1, fullerecru_word(refused));
            return 1;
        }
    }
    double tick = (double)MACHINE[FULLERECRU_LIMIT_TICK] * 1e-6, clock = 0, start[AXES] = {0};
    struct run r;
    for (uint64_t ticks = 0; take(memory, &r);) {
        double lasts = r.up + r.cruise + r.down;
        for (; clock < lasts; clock += tick, ticks++) {
            if (ticks % EACH == 0) {
                print_place((double)ticks * tick, start, &r, way(&r, clock));
            }
        }
        clock -= lasts; /* the rest of this tick belongs to the next block */
        for (int axis = 0; axis < AXES; axis++) {
            start[axis] += r.move[axis];
        }
    }
    printf("at rest at %.1f %.1f %.1f µm\n", start[0], start[1], start[2]);
    return 0;
}
