/*
 * A host in C that has each choice explained before it makes it: it makes the
 * first two choices of the listing of docs/SPECIFICATION.md, section 7, and a third
 * one when idle has run for its whole span, and prints for each the text of its
 * explanation, as an operator's display would show it.
 *
 *   cc -std=c11 -I include examples/hosts/explain.c crates/host/out/libhost.a
 *
 * Status 1 if something was refused that should not be, or if a choice is not the
 * one that was explained. explain.rs is the same host in Rust and prints the same.
 */
#include <inttypes.h>
#include <stdio.h>
#include <stdlib.h>

#include "shuffle.h"

/* Ends the host if the answer is a refusal. */
static shuffle_reply accepted(shuffle_reply reply)
{
    if (reply.number != SHUFFLE_ACCEPTED) {
        fprintf(stderr, "answer %" PRIu64 "\n", reply.number);
        exit(1);
    }
    return reply;
}

/* Explains the choice that these words lead to, makes it, and runs it for some ticks. */
static void run(shuffle_session *session, const uint32_t *words, size_t n, uint64_t ticks)
{
    uint8_t text[SHUFFLE_TEXT];
    shuffle_reply told = accepted(shuffle_explain(session, words, n, text, sizeof text));
    printf("At %" PRIu64 ":\n", session->clock);
    fwrite(text, 1, told.first, stdout);
    shuffle_reply chosen = accepted(shuffle_choose(session, words, n));
    if (chosen.used != told.used) {
        fprintf(stderr, "words used: %" PRIu64 ", not %" PRIu64 "\n", chosen.used, told.used);
        exit(1);
    }
    accepted(shuffle_advance(session, ticks));
}

int main(void)
{
    const uint32_t table[6] = {2, 10, 10, 3, 20, 15}; /* C, T, D of two rows */
    shuffle_session session = {0};
    accepted(shuffle_start(&session, table, 6));
    accepted(shuffle_arrive(&session, 0));
    accepted(shuffle_arrive(&session, 1));
    run(&session, (const uint32_t[]){4, 9}, 2, 1);
    run(&session, (const uint32_t[]){2, 5}, 2, 6);
    run(&session, (const uint32_t[]){3}, 1, 1);

    /* A choice is in force now: 8, and a buffer that is too short would be 15. */
    uint8_t text[SHUFFLE_TEXT];
    shuffle_reply refused = shuffle_explain(&session, table, 6, text, sizeof text);
    printf("With a choice in force: answer %" PRIu64 ", ticks left %" PRIu64 ".\n", refused.number, refused.first);
    return refused.number == SHUFFLE_IN_FORCE ? 0 : 1;
}
