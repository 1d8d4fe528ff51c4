/*
 * The shuffled earliest-deadline scheduler: the library for C and C++.
 *
 * One processor, whole ticks, sporadic jobs. The host keeps a record, the
 * session. Each call takes the record, changes it and gives an answer. What the
 * calls mean is in docs/SPECIFICATION.md, section 5. The calls are proved to do
 * what is written there, for every content of the record and every argument.
 *
 * Two calls take a table. shuffle_opinion says what there is to say of it and
 * needs no record: whether it is admitted, its kind, and V of each row.
 * shuffle_start makes its fresh session.
 *
 * shuffle_explain says in English what choose would answer and why. It changes
 * nothing but the buffer that it writes the text to.
 *
 * The host's loop. Advance by the ticks that passed; finish, if the running job
 * is done and its choice has ticks left; arrive, for each job that came on this
 * tick, or arrive_all for several of them; choose, if no choice is in force; run
 * what was chosen, with a timer for the span.
 *
 * Ownership. The caller owns the record, the words, the list, the rows and the
 * buffer; the library keeps no pointer, has no global state, allocates nothing
 * and needs no setup. Of the C library it calls memcpy and memset only.
 *
 * Stack. No call takes more than 8,192 bytes of it, memcpy and memset not
 * counted.
 *
 * Time. Each call on a record checks it first. What that takes depends on the
 * table alone (docs/PERFORMANCE.md): time shuffle_is_sound on its fresh session
 * once.
 *
 * Threads. Calls on different records may run at the same time. A record must
 * not be used by two calls at a time.
 *
 * Pointers must not be null, also where n is 0, and must be aligned for their
 * type. They must point to a whole record, to n words, to n rows, to a list of n
 * arrivals, or to a buffer of size bytes. Words, list and buffer must not overlap
 * the record, nor one another.
 *
 * Contents. A record of any content may be handed in; if it is not sound
 * (section 5.2), every call on it answers 5, arrive_all in each place of its
 * list. What these comments promise holds on x86-64 with the System V calling
 * convention, for which the library is built.
 */
#ifndef SHUFFLE_H
#define SHUFFLE_H

#include <stddef.h>
#include <stdint.h>

#ifdef __cplusplus
extern "C" {
#endif

/* Most rows in a table, and most words: three to a row. */
#define SHUFFLE_ROWS 16
#define SHUFFLE_WORDS 48

/* The row number that stands for idle. */
#define SHUFFLE_IDLE UINT64_C(16)

/* The longest T, and the longest span of a choice, in ticks. */
#define SHUFFLE_HORIZON UINT64_C(1000000)

/* The last tick that the clock may show: 2 to the 53rd. */
#define SHUFFLE_CLOCK_END UINT64_C(9007199254740992)

/* Most stretches that the meter takes, and most ticks of them all together. */
#define SHUFFLE_METER_STRETCHES 255
#define SHUFFLE_METER_TICKS 16384

/* The least buffer for a text. No text has more than 1,951 bytes. */
#define SHUFFLE_TEXT 2048

/*
 * The kinds of an admitted table: no V is negative; each is; some are. A row whose
 * V is negative is brittle: the budget of its jobs is 0.
 */
#define SHUFFLE_LOOSE UINT64_C(1)
#define SHUFFLE_TIGHT UINT64_C(2)
#define SHUFFLE_MIXED UINT64_C(3)

/*
 * The numbers of an answer, each with its two values. A value that is not named
 * is 0. If several refusals hold, the lowest number is given.
 */
enum shuffle_number {
    /*
     * Accepted. Opinion and start: kind, number of rows. Arrive: row, deadline.
     * Choose: row or 16 for idle, span. Advance: ticks left, 1 if the job is over
     * (else 0). Finish: row, unused ticks. Meter: how mixed the schedule is.
     * Explain: the length of the text.
     */
    SHUFFLE_ACCEPTED = 0,

    /* Refusals of a table, by opinion and start alike; a record stays as it was. */

    /* n is 0, above 48 or no multiple of 3. Values: n. */
    SHUFFLE_BAD_LENGTH = 1,
    /* A row breaks 1 <= C <= D <= T <= 1,000,000. Values: the first such row. */
    SHUFFLE_BAD_ROW = 2,
    /* The demand exceeds the time. Values: the first overload, which is the least t with demand above t, and the
     * demand at t. It is the first deadline that can be missed when all rows start together. */
    SHUFFLE_OVERLOAD = 3,
    /* No overload found, but no busy length up to the horizon. Values: 1,000,000. */
    SHUFFLE_UNSETTLED = 4,

    /* Refusals of the calls on a record, which stays as it was. */

    /* Any of them: the record is not sound. Values: none. */
    SHUFFLE_UNSOUND = 5,
    /* Arrive: the row is not in the table. Values: row. */
    SHUFFLE_NO_ROW = 6,
    /* Arrive: too early. Values: row, earliest next arrival. */
    SHUFFLE_TOO_EARLY = 7,
    /* Choose or explain: a choice is in force. Values: its ticks left. */
    SHUFFLE_IN_FORCE = 8,
    /* Advance or finish: no choice is in force. Values: none. */
    SHUFFLE_NO_CHOICE = 9,
    /* Advance: n is 0 or above the ticks left. Values: ticks left. */
    SHUFFLE_BAD_STEP = 10,
    /* Finish: idle is running. Values: none. */
    SHUFFLE_IDLING = 11,
    /* Advance: the clock would pass its end. Values: 2 to the 53rd. */
    SHUFFLE_CLOCK_ENDS = 12,

    /* 13 is what the program prints of a line that it can't read; no call gives it. */

    /* The meter, which has no record: stretches, ticks, window or n breaks its rule. Values: none. */
    SHUFFLE_BAD_SHAPE = 14,

    /* Explain: the buffer has fewer than 2,048 bytes. Values: its size. */
    SHUFFLE_SHORT_BUFFER = 15
};

/* What is held for a row. A job waits from its arrival until it is over, whether it runs or not. */
typedef struct shuffle_job {
    uint64_t next;   /* the earliest next arrival */
    uint64_t due;    /* the waiting job's deadline */
    uint64_t left;   /* its remaining ticks; 0: no job of the row waits */
    uint64_t budget; /* its budget left: how long later jobs and idle may still run before it; at most D - C, 0 if brittle */
} shuffle_job;

/*
 * The session. Hosts may read every field. Not looked at by the calls: words and
 * jobs past the last row, due and budget of a row whose left is 0, and chosen if
 * span is 0. In a record that the library made these are 0.
 */
typedef struct shuffle_session {
    uint64_t clock; /* ticks since the start */
    uint64_t kind;  /* SHUFFLE_LOOSE, SHUFFLE_TIGHT or SHUFFLE_MIXED */
    uint64_t count; /* the number of rows, 1 to 16 */
    /* Three to a row: C (longest run), T (least time between arrivals), D (from arrival to deadline). */
    uint32_t words[SHUFFLE_WORDS];
    shuffle_job jobs[SHUFFLE_ROWS]; /* of row i in place i */
    uint64_t chosen;                /* the choice in force: a row, or 16 for idle */
    uint64_t span;                  /* its ticks left; 0: no choice is in force */
} shuffle_session;

/* An answer: its number, how many words a choice used, or would use (0 to n; 0 for all else), and two values. */
typedef struct shuffle_reply {
    uint64_t number; /* one of enum shuffle_number */
    uint64_t used;
    uint64_t first;
    uint64_t second;
} shuffle_reply;

/* A row whose job arrives, and the place for the answer: its number and two values. */
typedef struct shuffle_arrival {
    uint64_t row;    /* never written */
    uint64_t number; /* one of enum shuffle_number */
    uint64_t first;
    uint64_t second;
} shuffle_arrival;

/* The opinion on a table: its number, 0 if the table is admitted, two values, and V of each row. */
typedef struct shuffle_judgement {
    uint64_t number; /* one of enum shuffle_number, 0 to 4 */
    uint64_t first;
    uint64_t second;
    /*
     * V of row i in place i: no job of the row arrives with a smaller budget; if V is
     * negative, the budget is 0. 0 past the last row, and all 0 if the table is refused.
     */
    int64_t budgets[SHUFFLE_ROWS];
} shuffle_judgement;

/*
 * The opinion on a table of n words, three to a row: C, T, D. No session is made,
 * and nothing is written but the answer. Refusals: 1 to 4.
 */
shuffle_judgement shuffle_opinion(const uint32_t *words, size_t n);

/*
 * Starts a table of n words. Accepted: the record, whatever it held, becomes the
 * fresh session. Refused, as the opinion on the table is (1 to 4): the record
 * stays as it was. So a session that was running goes on, and a record that
 * nothing was written to yet is still no session: fill it with zeros first, and
 * every call on it answers 5 until a start is accepted.
 */
shuffle_reply shuffle_start(shuffle_session *session, const uint32_t *words, size_t n);

/*
 * A job of the row arrives now. Its budget is D - C, less what the other rows can
 * need by its deadline, by waiting jobs and by those still to come; 0 if the row is
 * brittle. A choice in force is dropped. Refusals: 5, 6, 7.
 */
shuffle_reply shuffle_arrive(shuffle_session *session, uint64_t row);

/*
 * A job of each row of a list of n arrives now, in list order, as by
 * shuffle_arrive one after another. Each place of the list gets its answer,
 * whatever it held. A refused one, as of a row that comes twice, does not stop
 * those after it. The session is checked once for all. A choice in force is
 * dropped if some job is accepted; an empty list changes nothing. Refusals, in
 * the list: 5, 6, 7.
 */
void shuffle_arrive_all(shuffle_session *session, shuffle_arrival *list, size_t n);

/*
 * Chooses what runs next, by n random words, each candidate and each length of
 * the span equally likely. One word for the candidate and one for the span do,
 * unless one is passed over, which happens to fewer than one in 4,000; the next
 * is taken then. So hand in a few more than two, as four, and no word twice:
 * the first `used` of them are used. Without words the earliest deadline runs;
 * of equal deadlines the job that arrived first, and of those of one tick the
 * lowest row. It runs too if no word is left to decide, and a span is then as
 * long as it may be. In a mixed session no job but the first in order is a
 * candidate that is due later than the next job of some brittle row can be, nor
 * is idle while a job waits. If no job waits: idle, for 1,000,000 ticks.
 * Refusals: 5, 8.
 */
shuffle_reply shuffle_choose(shuffle_session *session, const uint32_t *words, size_t n);

/*
 * The choice in force ran for n ticks. Answers its ticks left; at 0 the choice
 * has ended, and choose is next. Refusals: 5, 9, 10, 12.
 */
shuffle_reply shuffle_advance(shuffle_session *session, uint64_t n);

/*
 * The chosen job has finished early, and the choice ends. The waiting jobs of
 * strictly later deadline, but for those of brittle rows, gain its unused ticks
 * as budget, each up to its D - C. A job that is done on the very last tick of its
 * span, before C ticks, has no choice in force, so this answers 9: finish it as
 * soon as it is chosen again, before any tick passes. Refusals: 5, 9, 11.
 */
shuffle_reply shuffle_finish(shuffle_session *session);

/*
 * Says in English what shuffle_choose would answer on this record and these n
 * words, and why: each waiting job in order, with its budget and whether it was a
 * candidate; in a mixed session the brittle deadline; what is chosen, and by
 * which word; the span, and what set it. docs/EXPLANATIONS.md has every phrase.
 *
 * The text, which is ASCII in lines, stands at the start of the buffer, without a
 * 0 at its end; the bytes past it stay as they were. First value: its length.
 * used: how many words shuffle_choose would use. The record stays as it is, and
 * no word is used up. A buffer of fewer than SHUFFLE_TEXT bytes is refused, also
 * where the text would fit. Refusals: 5, 8, 15, and then nothing is written.
 */
shuffle_reply shuffle_explain(const shuffle_session *session, const uint32_t *words, size_t n, uint8_t *buffer,
                              size_t size);

/* 1 if the record is sound, else 0. */
uint32_t shuffle_is_sound(const shuffle_session *session);

/*
 * How mixed a schedule is: the schedule entropy, in eighths of a bit, rounded
 * (docs/SPECIFICATION.md, section 10). The n rows are `stretches` stretches of
 * `ticks` ticks one after another, a row number per tick, 16 for idle or any
 * other byte. Two stretches are alike at a tick if their intervals of `window`
 * ticks from there on, around the end of each stretch, differ in at most
 * `threshold` ticks. First value: the sum, over each tick of each stretch, of
 * g(stretches) - g(c), where c stretches, itself among them, are like it there and
 * g(x) is 8 log2 x rounded down. 0: equal stretches. At most, if each is unlike
 * every other at each tick: n * g(stretches), so 1,032,192 at most.
 *
 * Refusal: 14, unless 1 <= stretches <= 255, 1 <= window <= ticks and
 * n = stretches * ticks <= SHUFFLE_METER_TICKS. Every threshold is accepted.
 *
 * Its time grows with stretches * stretches * ticks, whatever the window is, up to
 * some milliseconds, and it takes no memory but its stack. It has no record, so it
 * may run elsewhere than the scheduler.
 */
shuffle_reply shuffle_meter(const uint8_t *rows, size_t n, size_t stretches, size_t ticks, size_t window,
                            uint64_t threshold);

#ifdef __cplusplus
}
#define SHUFFLE_CHECK(condition) static_assert(condition, #condition)
#else
#define SHUFFLE_CHECK(condition) _Static_assert(condition, #condition)
#endif

/* The library reads and writes these places. */
SHUFFLE_CHECK(sizeof(shuffle_job) == 32);
SHUFFLE_CHECK(offsetof(shuffle_job, next) == 0);
SHUFFLE_CHECK(offsetof(shuffle_job, due) == 8);
SHUFFLE_CHECK(offsetof(shuffle_job, left) == 16);
SHUFFLE_CHECK(offsetof(shuffle_job, budget) == 24);
SHUFFLE_CHECK(sizeof(shuffle_session) == 744);
SHUFFLE_CHECK(offsetof(shuffle_session, clock) == 0);
SHUFFLE_CHECK(offsetof(shuffle_session, kind) == 8);
SHUFFLE_CHECK(offsetof(shuffle_session, count) == 16);
SHUFFLE_CHECK(offsetof(shuffle_session, words) == 24);
SHUFFLE_CHECK(offsetof(shuffle_session, jobs) == 216);
SHUFFLE_CHECK(offsetof(shuffle_session, chosen) == 728);
SHUFFLE_CHECK(offsetof(shuffle_session, span) == 736);
SHUFFLE_CHECK(sizeof(shuffle_reply) == 32);
SHUFFLE_CHECK(offsetof(shuffle_reply, number) == 0);
SHUFFLE_CHECK(offsetof(shuffle_reply, used) == 8);
SHUFFLE_CHECK(offsetof(shuffle_reply, first) == 16);
SHUFFLE_CHECK(offsetof(shuffle_reply, second) == 24);
SHUFFLE_CHECK(sizeof(shuffle_arrival) == 32);
SHUFFLE_CHECK(offsetof(shuffle_arrival, row) == 0);
SHUFFLE_CHECK(offsetof(shuffle_arrival, number) == 8);
SHUFFLE_CHECK(offsetof(shuffle_arrival, first) == 16);
SHUFFLE_CHECK(offsetof(shuffle_arrival, second) == 24);
SHUFFLE_CHECK(sizeof(shuffle_judgement) == 152);
SHUFFLE_CHECK(offsetof(shuffle_judgement, number) == 0);
SHUFFLE_CHECK(offsetof(shuffle_judgement, first) == 8);
SHUFFLE_CHECK(offsetof(shuffle_judgement, second) == 16);
SHUFFLE_CHECK(offsetof(shuffle_judgement, budgets) == 24);
SHUFFLE_CHECK(sizeof(size_t) == 8);
#undef SHUFFLE_CHECK

#endif
