/*
 * How mixed is the schedule of a plant? This host runs a table for as many hyperperiods as
 * the meter takes, once shuffled and once with no random words, which is plain
 * earliest-deadline-first, and prints in how many ticks the two differ, and the meter of
 * both for several interval lengths.
 *
 *   cc -std=c11 -I include examples/hosts/mixed.c crates/host/out/libhost.a
 *
 * Arguments: C, T and D of each row; four rows if none are given. Every job arrives as
 * early as its row allows, from tick 0 on, and runs for C ticks, so that all hyperperiods
 * bring the same jobs and differ by the shuffling alone. Status 1 if the table is refused,
 * two hyperperiods are more than the meter takes, or a call is refused. mixed.rs is the
 * same host in Rust and prints the same.
 */
#include <inttypes.h>
#include <stdio.h>
#include <stdlib.h>

#include "shuffle.h"

enum { WINDOWS = 5 };

static const uint32_t plant[] = {
    /* C, T, D: the table of plant.c */
    2, 20,  20,  /* valve */
    3, 30,  25,  /* motor */
    8, 60,  50,  /* camera */
    5, 100, 100, /* radio */
};

struct table {
    uint32_t words[SHUFFLE_WORDS];
    size_t n;
    size_t ticks;     /* the hyperperiod: the least common multiple of all T */
    size_t stretches; /* as many of them as the meter takes */
};

/* SplitMix64; a real host draws its words from a source that nobody can guess. */
static uint64_t draw(uint64_t *random)
{
    uint64_t z = *random += UINT64_C(0x9e3779b97f4a7c15);
    z = (z ^ (z >> 30)) * UINT64_C(0xbf58476d1ce4e5b9);
    z = (z ^ (z >> 27)) * UINT64_C(0x94d049bb133111eb);
    return z ^ (z >> 31);
}

static uint64_t divisor(uint64_t a, uint64_t b)
{
    return b == 0 ? a : divisor(b, a % b);
}

/* The table of the arguments. 0 if it is refused or its hyperperiod is too long. */
static int read_table(struct table *t, int count, char **arguments)
{
    const int given = count > 0;
    t->n = given ? (size_t)count : sizeof plant / sizeof plant[0];
    for (size_t i = 0; i < t->n && i < SHUFFLE_WORDS; i += 1) {
        t->words[i] = given ? (uint32_t)strtoul(arguments[i], NULL, 10) : plant[i];
    }
    if (t->n > SHUFFLE_WORDS || shuffle_opinion(t->words, t->n).number != SHUFFLE_ACCEPTED) {
        fputs("the table is refused\n", stderr);
        return 0;
    }
    uint64_t ticks = 1;
    for (size_t i = 1; i < t->n && ticks <= SHUFFLE_METER_TICKS; i += 3) {
        ticks = ticks / divisor(ticks, t->words[i]) * t->words[i];
    }
    t->ticks = ticks;
    t->stretches = SHUFFLE_METER_TICKS / ticks;
    if (t->stretches > SHUFFLE_METER_STRETCHES) {
        t->stretches = SHUFFLE_METER_STRETCHES;
    }
    if (t->stretches < 2) {
        fputs("two hyperperiods are more than the meter takes\n", stderr);
        return 0;
    }
    return 1;
}

/* The rows whose job arrives at a tick, all in one call. */
static int arrive(shuffle_session *session, const struct table *t, uint64_t clock)
{
    shuffle_arrival list[SHUFFLE_ROWS];
    size_t n = 0;
    for (size_t row = 0; 3 * row < t->n; row += 1) {
        if (clock % t->words[3 * row + 1] == 0) {
            list[n].row = row;
            n += 1;
        }
    }
    shuffle_arrive_all(session, list, n);
    for (size_t i = 0; i < n; i += 1) {
        if (list[i].number != SHUFFLE_ACCEPTED) {
            return 0;
        }
    }
    return 1;
}

/* Runs all stretches tick by tick, with four random words to a choice or none, and notes the row of each tick. */
static int run(const struct table *t, size_t words_given, uint8_t *rows)
{
    shuffle_session session = {0};
    uint64_t random = 2026;
    shuffle_start(&session, t->words, t->n);
    for (uint64_t clock = 0; clock < t->stretches * t->ticks; clock += 1) {
        if (!arrive(&session, t, clock)) {
            return 0;
        }
        if (session.span == 0) {
            const uint64_t a = draw(&random);
            const uint64_t b = draw(&random);
            const uint32_t words[4] = {(uint32_t)a, (uint32_t)(a >> 32), (uint32_t)b, (uint32_t)(b >> 32)};
            if (shuffle_choose(&session, words, words_given).number != SHUFFLE_ACCEPTED) {
                return 0;
            }
        }
        rows[clock] = (uint8_t)session.chosen;
        if (shuffle_advance(&session, 1).number != SHUFFLE_ACCEPTED) {
            return 0;
        }
    }
    return 1;
}

/* In how many ticks the two schedules have different rows. */
static void print_differing(const uint8_t *shuffled, const uint8_t *unshuffled, size_t n)
{
    size_t differing = 0;
    for (size_t tick = 0; tick < n; tick += 1) {
        differing += shuffled[tick] != unshuffled[tick];
    }
    const double percent = 100.0 * (double)differing / (double)n;
    printf("in %zu of %zu ticks (%.2f %%) another row runs than without words\n", differing, n, percent);
}

/* The meter of a schedule, and the schedule entropy in bits that it stands for: eighths, over stretches and window. */
static void print_meter(const struct table *t, const uint8_t *rows, size_t window, int width)
{
    const size_t n = t->stretches * t->ticks;
    const shuffle_reply reply = shuffle_meter(rows, n, t->stretches, t->ticks, window, window / 8);
    printf("  %*" PRIu64 "  %8.2f", width, reply.first, (double)reply.first / (8.0 * (double)(t->stretches * window)));
}

/* The most that the meter can show: for each tick 8 log2 of the stretches, rounded down, the highest bit of the power. */
static uint64_t most(const struct table *t)
{
    const uint64_t k = t->stretches, square = k * k, fourth = square * square;
    uint64_t eighths = 0;
    for (uint64_t power = fourth * fourth; power > 1; power /= 2) {
        eighths += 1;
    }
    return k * t->ticks * eighths;
}

int main(int argc, char **argv)
{
    static uint8_t shuffled[SHUFFLE_METER_TICKS], unshuffled[SHUFFLE_METER_TICKS];
    struct table t;
    if (!read_table(&t, argc - 1, argv + 1)) {
        return 1;
    }
    if (!run(&t, 4, shuffled) || !run(&t, 0, unshuffled)) {
        fputs("a call was refused\n", stderr);
        return 1;
    }
    printf("%zu hyperperiods of %zu ticks: the meter shows 0 to %" PRIu64 "\n", t.stretches, t.ticks, most(&t));
    print_differing(shuffled, unshuffled, t.stretches * t.ticks);
    puts("\ninterval  threshold   shuffled      bits  unshuffled      bits");
    const size_t windows[WINDOWS] = {1, 8, 32, 128, t.ticks};
    for (size_t i = 0; i < WINDOWS; i += 1) {
        if (windows[i] < t.ticks || i == WINDOWS - 1) {
            printf("%8zu  %9zu", windows[i], windows[i] / 8);
            print_meter(&t, shuffled, windows[i], 9);
            print_meter(&t, unshuffled, windows[i], 10);
            putchar('\n');
        }
    }
    return 0;
}
