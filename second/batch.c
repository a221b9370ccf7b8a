/* batch.c: reads a batch of guard calls on standard input and writes their answers on standard output. */
#include "field.h"
#include "guard.h"

/* What the three fields of a call are: the writer's stand in the places of the others',
 * and a trace stands behind its policy. */
static struct field policy, state, events;
static struct field *const nodes = &policy, *const steps = &state, *const out = &events;

static void write_number(uint64_t number, unsigned bytes)
{
    while (bytes-- > 0) {
        putchar((int)(number >> 8 * bytes & 0xFFu));
    }
}

/* A refusal number and its place: 0 where there is none, else the place and 1. */
static void write_refusal(uint8_t refusal, guard_place place)
{
    write_number(refusal, 1);
    write_number(place.given ? place.number + 1u : 0, 2);
}

static void answer_check(void)
{
    const guard_sets sets = guard_check(policy.bytes, policy.length);

    write_refusal(sets.refusal, sets.place);
    write_number(sets.regulated.bits, 8);
    write_number(sets.effect.bits, 8);
}

static void answer_write(void)
{
    const guard_written written = guard_write(nodes->bytes, nodes->length, steps->bytes,
                                              steps->length, out->bytes, out->length);

    write_refusal(written.refusal, written.place);
    write_number(written.length, 2);
    fwrite(out->bytes, 1, out->length, stdout);
}

static void write_counts(const uint32_t *counts, unsigned how_many)
{
    for (unsigned i = 0; i < how_many; i++) {
        write_number(counts[i], 4);
    }
}

static void write_tally(const guard_tally *tally)
{
    write_counts(tally->steps, GUARD_MAX_STEPS);
    write_counts(tally->accepted, GUARD_ACTIONS);
    write_counts(tally->suppressed, GUARD_ACTIONS);
    write_counts(tally->inserted, GUARD_ACTIONS);
}

static void set_tally(guard_tally *tally, uint32_t start)
{
    for (unsigned i = 0; i < GUARD_MAX_STEPS; i++) {
        tally->steps[i] = start;
    }
    for (unsigned a = 0; a < GUARD_ACTIONS; a++) {
        tally->accepted[a] = tally->suppressed[a] = tally->inserted[a] = start;
    }
}

static void answer_trace(uint8_t action)
{
    const size_t end = policy_end(&policy);
    guard_tally tally;

    set_tally(&tally, tally_start(action));
    const guard_traced traced =
        guard_trace(policy.bytes, end, policy.bytes + end, policy.length - end, state.bytes,
                    state.length, events.bytes, events.length, &tally);
    write_refusal(traced.refusal, traced.place);
    write_number(traced.judged, 4);
    write_number(traced.events, 4);
    write_number(traced.status, 1);
    fwrite(state.bytes, 1, state.length, stdout);
    fwrite(events.bytes, 1, events.length, stdout);
    write_tally(&tally);
}

static void answer_call(int entry, uint8_t action)
{
    guard_answer answer;

    if (entry == OPEN) {
        answer = guard_open(policy.bytes, policy.length, state.bytes, state.length,
                            events.bytes, events.length);
    } else if (entry == OFFER) {
        answer = guard_offer(policy.bytes, policy.length, state.bytes, state.length,
                             events.bytes, events.length, action);
    } else {
        answer = guard_close(policy.bytes, policy.length, state.bytes, state.length,
                             events.bytes, events.length);
    }
    write_refusal(answer.refusal, answer.place);
    write_number(answer.events, 2);
    write_number(answer.status, 1);
    fwrite(state.bytes, 1, state.length, stdout);
    fwrite(events.bytes, 1, events.length, stdout);
}

/* Reads the rest of a call and answers it. */
static bool one_call(int entry)
{
    if (entry > TRACE || !read_field(&policy) || !read_field(&state) || !read_field(&events)) {
        return false;
    }
    const int action = getchar();
    if (action == EOF) {
        return false;
    }
    if (entry == CHECK) {
        answer_check();
    } else if (entry == WRITE) {
        answer_write();
    } else if (entry == TRACE) {
        answer_trace((uint8_t)action);
    } else {
        answer_call(entry, (uint8_t)action);
    }
    return true;
}

int main(void)
{
    for (int entry = getchar(); entry != EOF; entry = getchar()) {
        if (!one_call(entry)) {
            fputs("batch: broken input\n", stderr);
            return 1;
        }
        if (!surrounded(&policy) || !surrounded(&state) || !surrounded(&events)) {
            fputs("batch: a byte beside a buffer is written\n", stderr);
            return 1;
        }
    }
    return fflush(stdout) == 0 ? 0 : 1;
}
