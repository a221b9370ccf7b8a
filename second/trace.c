/* trace.c: a trace run of 02 over the second guard, read as the desk's guardtrace reads it; what it counted, in plain numbers. The text around them
 * is made by tests/tallies.py. Sentences of 02 stand in quotation marks. */
#include "guard.h"

#include <stdio.h>

enum { MAX_POLICY = 6646, MAX_TRACE = 1048576, EVENT_BYTES = 4194304 };

/* one byte more than a policy and a trace have together, so that a longer trace is seen */
static uint8_t input[MAX_POLICY + MAX_TRACE + 1], state[GUARD_STATE_BYTES], events[EVENT_BYTES];
static guard_tally tally;

static const char *const STATUS[] = {
    [GUARD_RUNNING] = "running",   [GUARD_ENDED] = "ended",   [GUARD_ENDED_LEFT] = "left",
    [GUARD_ENDED_RIGHT] = "right", [GUARD_HALTED] = "halted",
};

/* Where the policy ends: as its first two bytes say, at most 6,646 bytes, and at least those two. */
static size_t policy_end(size_t length)
{
    size_t said;

    if (length < 2) {
        return length;
    }
    said = (size_t)input[0] << 8 | input[1];
    said = said < 2 ? 2 : said > MAX_POLICY ? MAX_POLICY : said;
    return said < length ? said : length;
}

static void say_refusal(guard_traced run)
{
    if (run.place.given) {
        printf("refused %u at %u\n", (unsigned)run.refusal, (unsigned)run.place.number);
    } else {
        printf("refused %u\n", (unsigned)run.refusal);
    }
}

/* "the number of actions judged, a halting one too, is returned" */
static void say_end(guard_traced run)
{
    printf("judged %u events %u status %s", (unsigned)run.judged, (unsigned)run.events, STATUS[run.status]);
    if (run.refusal == 0) {
        putchar('\n');
    } else {
        putchar(' ');
        say_refusal(run);
    }
}

/* "for each step how often it ran, for each action how often it was accepted, suppressed or inserted": every count */
static void say_tally(void)
{
    for (unsigned i = 0; i < GUARD_MAX_STEPS; i++) {
        printf("step %u %lu\n", i, (unsigned long)tally.steps[i]);
    }
    for (unsigned a = 0; a < GUARD_ACTIONS; a++) {
        printf("action %u %lu %lu %lu\n", a, (unsigned long)tally.accepted[a], (unsigned long)tally.suppressed[a], (unsigned long)tally.inserted[a]);
    }
}

int main(void)
{
    const size_t length = fread(input, 1, sizeof input, stdin), end = policy_end(length);
    guard_traced run;

    if (length - end > MAX_TRACE) {
        puts("too long");
    } else {
        run = guard_trace(input, end, input + end, length - end, state, sizeof state, events, sizeof events, &tally);
        if (!run.opened) {
            say_refusal(run);
        } else {
            say_end(run);
            say_tally();
        }
    }
    return fflush(stdout) == 0 && !ferror(stdin) && !ferror(stdout) ? 0 : 1;
}
