/* bench.c: one kind of call of one guard on one policy, so many times: bench GUARD CALL POLICY COUNT [ACTION]. GUARD is ours or second,
 * CALL is check, open, offer, close or write, which writes the policy anew from its own records; or run, which is one run over a trace of so many
 * times the action. Prints the answer, or, with COUNT 0, how much stack one call took, or a run over one action. */
#include "../include/fretmere_trace.h"
#include "../second/guard.h"

#include <stdbool.h>
#include <stdio.h>
#include <stdlib.h>
#include <string.h>

enum { PAINTED = 65536, PAINT = 0xA5 };

static uint8_t policy[FRETMERE_POLICY_MOST], opened[FRETMERE_STATE_BYTES], state[FRETMERE_STATE_BYTES], events[FRETMERE_EVENT_BYTES];
static size_t length;

/* For write: the policy's own records, which stand behind its front of 6 bytes, and the output. */
static uint8_t written[FRETMERE_POLICY_MOST];
static const uint8_t *const nodes = policy + 6;
static size_t nodes_length(void) { return 16u * policy[3]; }
static size_t steps_length(void) { return length - 6 - nodes_length(); }

static unsigned ours(char call, uint8_t action)
{
    uint64_t regulated = 0, effects = 0;

    switch (call) {
    case 'h':
        return fretmere_check(policy, length, &regulated, &effects) != 0 ? 0 : (unsigned)regulated;
    case 'p':
        return fretmere_open(policy, length, state, sizeof state, events, sizeof events) & 0xFFFFFF;
    case 'f':
        return fretmere_offer(policy, length, state, sizeof state, events, sizeof events, action) & 0xFFFFFF;
    case 'r':
        return fretmere_write(nodes, nodes_length(), nodes + nodes_length(), steps_length(), written, sizeof written) & 0xFFFFFF;
    default:
        return fretmere_close(policy, length, state, sizeof state, events, sizeof events) & 0xFFFFFF;
    }
}

static unsigned answer(guard_answer a) { return (unsigned)a.status << 16 | a.events; }

static unsigned second(char call, uint8_t action)
{
    switch (call) {
    case 'h':
        return (unsigned)guard_check(policy, length).regulated.bits;
    case 'p':
        return answer(guard_open(policy, length, state, sizeof state, events, sizeof events));
    case 'f':
        return answer(guard_offer(policy, length, state, sizeof state, events, sizeof events, action));
    case 'r':
        return (unsigned)guard_write(nodes, nodes_length(), nodes + nodes_length(), steps_length(), written, sizeof written).length;
    default:
        return answer(guard_close(policy, length, state, sizeof state, events, sizeof events));
    }
}

static unsigned one_call(bool second_guard, char call, uint8_t action)
{
    memcpy(state, opened, sizeof state);
    return second_guard ? second(call, action) : ours(call, action);
}

/* The stack below the caller's frame: painted before a call, and after it how much of it was written. */
__attribute__((noinline)) static size_t stack(bool paint)
{
    volatile uint8_t *room = __builtin_alloca(PAINTED);
    size_t i = 0;

    for (; i < PAINTED && paint; i++) {
        room[i] = PAINT;
    }
    while (i < PAINTED && room[i] == PAINT) {
        i++;
    }
    return PAINTED - i;
}

/* A run over a trace, apart from the calls, so that these cost what they do without it. */
enum { TRACE_MOST = 64 };
static uint8_t trace[TRACE_MOST], all_events[FRETMERE_EVENT_BYTES * (TRACE_MOST + 2)];
static fretmere_tally our_tally;
static guard_tally their_tally;

__attribute__((noinline)) static unsigned our_run(size_t trace_length)
{
    fretmere_run run = {0, 0, 0};

    fretmere_trace(policy, length, trace, trace_length, state, sizeof state, all_events, sizeof all_events, &our_tally, &run);
    return (unsigned)(run.status << 24 | run.events);
}

__attribute__((noinline)) static unsigned their_run(size_t trace_length)
{
    const guard_traced run = guard_trace(policy, length, trace, trace_length, state, sizeof state, all_events, sizeof all_events, &their_tally);

    return (unsigned)run.status << 24 | run.events;
}

static void measure_run(bool second_guard, uint8_t action, long count)
{
    const size_t trace_length = count > TRACE_MOST ? TRACE_MOST : count > 0 ? (size_t)count : 1;

    memset(trace, action, sizeof trace);
    stack(true);
    const unsigned answered = second_guard ? their_run(trace_length) : our_run(trace_length);
    const size_t taken = stack(false);
    printf("%zu\n", count == 0 ? taken : answered);
}

int main(int words, char **word)
{
    FILE *file = words >= 5 ? fopen(word[3], "rb") : NULL;

    if (file == NULL) {
        fprintf(stderr, "bench GUARD CALL POLICY COUNT [ACTION]\n");
        return 2;
    }
    length = fread(policy, 1, sizeof policy, file);
    fclose(file);
    const bool second_guard = word[1][0] == 's';
    const char call = word[2][1];
    const uint8_t action = words > 5 ? (uint8_t)atoi(word[5]) : 0;
    const long count = atol(word[4]);
    unsigned last = 0;

    if (call == 'u') {
        measure_run(second_guard, action, count);
        return 0;
    }
    guard_open(policy, length, opened, sizeof opened, events, sizeof events);
    if (count == 0) {
        memcpy(state, opened, sizeof state);
        stack(true);
        last = second_guard ? second(call, action) : ours(call, action);
        printf("%zu\n", stack(false));
        return last == 0xFFFFFFFF;
    }
    for (long i = 0; i < count; i++) {
        last = one_call(second_guard, call, action);
    }
    printf("%u\n", last);
    return 0;
}
