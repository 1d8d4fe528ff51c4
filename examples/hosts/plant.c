/*
 * A host in C: it drives a plant of four tasks for some simulated minutes and
 * prints the schedule. A tick is a millisecond. Before each shift the tasks pause,
 * and at the shift change all of them start on one tick.
 *
 *   cc -std=c11 -I include examples/hosts/plant.c crates/host/out/libhost.a
 *
 * Argument: the ticks to simulate, 180,000 if none is given. Status 1 if a job
 * was late or something was refused that should not be. plant.rs is the same host
 * in Rust and prints the same.
 */
#include <inttypes.h>
#include <stdio.h>
#include <stdlib.h>

#include "shuffle.h"

enum { TASKS = 4, SHIFT = 60000, PAUSE = 200, STRIP = 300, STRIP_LINE = 100 };

static const uint32_t table[3 * TASKS] = {
    /* C, T, D */
    2, 20,  20,  /* valve */
    3, 30,  25,  /* motor */
    8, 60,  50,  /* camera */
    5, 100, 100, /* radio */
};

/* The plant with a slower radio, which is overloaded. */
static const uint32_t slower[3 * TASKS] = {2, 20, 20, 3, 30, 25, 8, 60, 50, 70, 100, 100};

static const char *const names[TASKS + 1] = {"valve", "motor", "camera", "radio", "idle"};

/* What the host itself knows of a task; it trusts the library for none of it. */
struct task {
    uint64_t arrival; /* the tick of its next arrival */
    uint64_t bounce;  /* the tick at which the last arrival is reported a second time, or 0 */
    uint64_t due;     /* the deadline of its job */
    uint64_t need;    /* the ticks that the job needs, C at most; 0: no job waits */
    uint64_t ran;     /* the ticks that it got */
};

struct plant {
    shuffle_session session;
    struct task tasks[TASKS];
    uint64_t clock;
    uint64_t chosen;
    uint64_t span; /* ticks left of the choice; 0: none is in force */
    uint64_t random;
    uint64_t jobs, early, late;
    uint64_t calls, most, refused, faults;
    char strip[TASKS + 1][STRIP];
};

/* SplitMix64; a real host draws its words from a source that nobody can guess. */
static uint64_t draw(struct plant *p)
{
    uint64_t z = p->random += UINT64_C(0x9e3779b97f4a7c15);
    z = (z ^ (z >> 30)) * UINT64_C(0xbf58476d1ce4e5b9);
    z = (z ^ (z >> 27)) * UINT64_C(0x94d049bb133111eb);
    return z ^ (z >> 31);
}

static uint64_t least(uint64_t a, uint64_t b)
{
    return a < b ? a : b;
}

/* Any other answer than the expected one is a fault. */
static void expect(struct plant *p, uint64_t number, uint64_t first, uint64_t second, uint64_t expected)
{
    p->refused += number != SHUFFLE_ACCEPTED;
    if (number != expected) {
        p->faults += 1;
        fprintf(stderr, "tick %" PRIu64 ": answer %" PRIu64 " (%" PRIu64 ", %" PRIu64 ")\n", p->clock, number, first,
                second);
    }
}

/* Counts a call. */
static void count(struct plant *p, shuffle_reply reply, uint64_t expected)
{
    p->calls += 1;
    expect(p, reply.number, reply.first, reply.second, expected);
}

/* A task that would start in the pause before a shift starts with the shift. */
static uint64_t start_of(uint64_t tick)
{
    const uint64_t change = (tick / SHIFT + 1) * SHIFT;
    return change - tick < PAUSE ? change : tick;
}

/* A job has arrived: it often needs all of C, and the next one comes T later or more. */
static void arrived(struct plant *p, uint64_t row)
{
    struct task *t = &p->tasks[row];
    const uint32_t c = table[3 * row], least_gap = table[3 * row + 1], d = table[3 * row + 2];
    p->span = 0;
    p->jobs += 1;
    p->late += t->need != 0;
    t->due = p->clock + d;
    t->need = draw(p) % 4 == 0 ? 1 + draw(p) % c : c;
    t->ran = 0;
    t->arrival = p->clock + least_gap;
    t->bounce = draw(p) % 16 == 0 ? p->clock + 1 + draw(p) % (least_gap - 1) : 0;
    if (draw(p) % 3 == 0) {
        t->arrival += draw(p) % least_gap;
    }
    t->arrival = start_of(t->arrival);
    if (p->clock < STRIP) {
        p->strip[row][p->clock] = '|';
    }
}

/* At a shift change the slower radio is tried. Its table is refused, and the session goes on as it was. */
static void change_shift(struct plant *p)
{
    count(p, shuffle_start(&p->session, slower, 3 * TASKS), SHUFFLE_OVERLOAD);
}

/*
 * All arrivals of this tick in one call, at a shift change those of all tasks. One that is reported a second time is too
 * early, and refused; the others of the list are handled all the same.
 */
static void arrivals(struct plant *p)
{
    shuffle_arrival list[TASKS];
    size_t n = 0;
    for (uint64_t row = 0; row < TASKS; row += 1) {
        if (p->tasks[row].arrival == p->clock || p->tasks[row].bounce == p->clock) {
            list[n].row = row;
            n += 1;
        }
    }
    if (n == 0) {
        return;
    }
    if (n == TASKS) {
        change_shift(p);
    }
    shuffle_arrive_all(&p->session, list, n);
    p->calls += 1;
    p->most = p->most < n ? n : p->most;
    for (size_t i = 0; i < n; i += 1) {
        struct task *t = &p->tasks[list[i].row];
        const int is_new = t->arrival == p->clock;
        expect(p, list[i].number, list[i].first, list[i].second, is_new ? SHUFFLE_ACCEPTED : SHUFFLE_TOO_EARLY);
        if (is_new) {
            arrived(p, list[i].row);
        } else {
            t->bounce = 0;
        }
    }
}

static void choose(struct plant *p)
{
    /* Two words do, unless some are passed over. */
    const uint64_t a = draw(p);
    const uint64_t b = draw(p);
    const uint32_t words[4] = {(uint32_t)a, (uint32_t)(a >> 32), (uint32_t)b, (uint32_t)(b >> 32)};
    const shuffle_reply reply = shuffle_choose(&p->session, words, 4);
    count(p, reply, SHUFFLE_ACCEPTED);
    p->chosen = reply.first;
    p->span = reply.second;
}

/* The job of a task is over. */
static void end_job(struct plant *p, struct task *t)
{
    p->late += t->due < p->clock;
    p->faults += t->ran != t->need;
    t->need = 0;
}

/* Ticks up to the next moment at which the host has to act. */
static uint64_t step_length(const struct plant *p, uint64_t end)
{
    uint64_t ticks = least(p->span, end - p->clock);
    for (uint64_t row = 0; row < TASKS; row += 1) {
        const struct task *t = &p->tasks[row];
        ticks = least(ticks, t->arrival - p->clock);
        if (t->bounce > p->clock) {
            ticks = least(ticks, t->bounce - p->clock);
        }
        if (row == p->chosen) {
            ticks = least(ticks, t->need - t->ran);
        }
    }
    return ticks;
}

/* Marks the next ticks in the strip. */
static void mark(struct plant *p, uint64_t ticks)
{
    for (uint64_t tick = p->clock; tick < least(p->clock + ticks, STRIP); tick += 1) {
        for (uint64_t row = 0; row < TASKS; row += 1) {
            char *place = &p->strip[row][tick];
            if (row == p->chosen) {
                *place = *place == '|' ? '@' : '#';
            } else if (p->tasks[row].need != 0 && *place == ' ') {
                *place = '.';
            }
        }
        if (p->chosen == SHUFFLE_IDLE) {
            p->strip[TASKS][tick] = '#';
        }
    }
}

static void advance(struct plant *p, uint64_t ticks)
{
    mark(p, ticks);
    const shuffle_reply reply = shuffle_advance(&p->session, ticks);
    count(p, reply, SHUFFLE_ACCEPTED);
    p->clock += ticks;
    p->span = reply.first;
    if (p->chosen < TASKS) {
        p->tasks[p->chosen].ran += ticks;
        if (reply.second == 1) {
            end_job(p, &p->tasks[p->chosen]);
        }
    }
}

/* The chosen job has done its work before C ticks. */
static void finish(struct plant *p)
{
    count(p, shuffle_finish(&p->session), SHUFFLE_ACCEPTED);
    p->span = 0;
    p->early += 1;
    end_job(p, &p->tasks[p->chosen]);
}

/*
 * One turn of the host's loop: the arrivals of this tick, a choice if none is in
 * force, and then the ticks up to the next moment at which something happens.
 *
 * A job that is done on the very last tick of its span, before C ticks, has no
 * choice in force any more, so that finish would be refused with 9. For the
 * library it still waits. It is finished here, before any tick passes, when it
 * is chosen again: ran is need already.
 */
static void step(struct plant *p, uint64_t end)
{
    arrivals(p);
    if (p->span == 0) {
        choose(p);
    }
    if (p->chosen < TASKS && p->tasks[p->chosen].ran == p->tasks[p->chosen].need) {
        finish(p);
    } else {
        advance(p, step_length(p, end));
    }
}

static void print_strip(const struct plant *p, uint64_t end)
{
    const uint64_t shown = least(end, STRIP);
    puts("| arrives, . waits, # runs, @ arrives and runs\n");
    for (uint64_t from = 0; from < shown; from += STRIP_LINE) {
        const uint64_t ticks = least(STRIP_LINE, shown - from);
        printf("%-8s", "tick");
        for (uint64_t tick = from; tick < from + ticks; tick += 10) {
            printf("%-10" PRIu64, tick);
        }
        putchar('\n');
        for (int row = 0; row <= TASKS; row += 1) {
            printf("%-8s%.*s\n", names[row], (int)ticks, &p->strip[row][from]);
        }
        putchar('\n');
    }
}

static void print_summary(const struct plant *p)
{
    uint64_t waiting = 0;
    for (int row = 0; row < TASKS; row += 1) {
        waiting += p->tasks[row].need != 0;
    }
    printf("ticks %" PRIu64 "; jobs %" PRIu64 ", finished early %" PRIu64 ", waiting at the end %" PRIu64
           ", late %" PRIu64 "\n",
           p->clock, p->jobs, p->early, waiting, p->late);
    printf("calls %" PRIu64 ", up to %" PRIu64 " arrivals in one; refused %" PRIu64
           ", answered otherwise than expected %" PRIu64 "\n",
           p->calls, p->most, p->refused, p->faults);
}

static void start(struct plant *p)
{
    *p = (struct plant){.random = 2026};
    for (int row = 0; row <= TASKS; row += 1) {
        for (int tick = 0; tick < STRIP; tick += 1) {
            p->strip[row][tick] = ' ';
        }
    }
    count(p, shuffle_start(&p->session, table, 3 * TASKS), SHUFFLE_ACCEPTED);
}

int main(int argc, char **argv)
{
    const uint64_t end = argc > 1 ? strtoull(argv[1], NULL, 10) : 180000;
    struct plant p;
    start(&p);
    /* After a fault nothing more can be relied on. */
    while (p.clock < end && p.faults == 0) {
        step(&p, end);
    }
    /* Jobs that still wait at their deadline are late too. */
    for (int row = 0; row < TASKS; row += 1) {
        p.late += p.tasks[row].need != 0 && p.tasks[row].due <= p.clock;
    }
    print_strip(&p, end);
    print_summary(&p);
    return p.late != 0 || p.faults != 0;
}
