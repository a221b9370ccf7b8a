/* client.c: a C program over both libraries. It makes 01's small calls by the headers' names, then those of a batch on standard input (as
 * second/draw draws it, arbitrary bytes among them), each beside the second guard's, and watches the surroundings of every buffer. */
#include "../include/fretmere_trace.h"
#include "../second/field.h"
#include "../second/guard.h"

#include <stdlib.h>

static void fail(const char *what, unsigned long call)
{
    printf("client: call %lu: %s\n", call, what);
    exit(1);
}

static struct field policy, state, events;
static uint8_t kept[MAX_FIELD], their_state[MAX_FIELD], their_events[MAX_FIELD];

/* The same refusal, and the same place or none. */
static bool same_refusal(fretmere_answer ours, uint8_t refusal, guard_place place)
{
    return fretmere_refusal(ours) == refusal && fretmere_place(ours) == (place.given ? (int)place.number : FRETMERE_NO_PLACE);
}

static void compare_check(unsigned long call)
{
    const guard_sets theirs = guard_check(policy.bytes, policy.length);
    uint64_t sets[4] = {7, 8, 9, 10};
    const fretmere_answer ours = fretmere_check(policy.bytes, policy.length, &sets[1], &sets[2]);

    if (!same_refusal(ours, theirs.refusal, theirs.place)) {
        fail("another refusal of the check", call);
    }
    if (ours == FRETMERE_NOT_REFUSED ? sets[1] != theirs.regulated.bits || sets[2] != theirs.effect.bits : sets[1] != 8 || sets[2] != 9) {
        fail("other sets", call);
    }
    if (sets[0] != 7 || sets[3] != 10) {
        fail("a byte beside the sets is written", call);
    }
}

static guard_answer their_answer(int entry, uint8_t action)
{
    memcpy(their_state, state.bytes, state.length);
    memcpy(their_events, events.bytes, events.length);
    switch (entry) {
    case OPEN:
        return guard_open(policy.bytes, policy.length, their_state, state.length, their_events, events.length);
    case OFFER:
        return guard_offer(policy.bytes, policy.length, their_state, state.length, their_events, events.length, action);
    default:
        return guard_close(policy.bytes, policy.length, their_state, state.length, their_events, events.length);
    }
}

static fretmere_answer our_answer(int entry, uint8_t action)
{
    switch (entry) {
    case OPEN:
        return fretmere_open(policy.bytes, policy.length, state.bytes, state.length, events.bytes, events.length);
    case OFFER:
        return fretmere_offer(policy.bytes, policy.length, state.bytes, state.length, events.bytes, events.length, action);
    default:
        return fretmere_close(policy.bytes, policy.length, state.bytes, state.length, events.bytes, events.length);
    }
}

static void compare_call(int entry, uint8_t action, unsigned long call)
{
    const guard_answer theirs = their_answer(entry, action);
    const fretmere_answer ours = our_answer(entry, action);

    if (!same_refusal(ours, theirs.refusal, theirs.place) || fretmere_status(ours) != theirs.status || fretmere_events(ours) != theirs.events) {
        fail("another answer", call);
    }
    if (memcmp(state.bytes, their_state, state.length) != 0 || memcmp(events.bytes, their_events, events.length) != 0) {
        fail("another buffer", call);
    }
}

/* The fields of a write are nodes, steps and output. */
static void compare_write(unsigned long call)
{
    memcpy(their_state, state.bytes, state.length);
    memcpy(their_events, events.bytes, events.length);
    const guard_written theirs = guard_write(policy.bytes, policy.length, state.bytes, state.length, their_events, events.length);
    const fretmere_answer ours = fretmere_write(policy.bytes, policy.length, state.bytes, state.length, events.bytes, events.length);

    if (!same_refusal(ours, theirs.refusal, theirs.place) || fretmere_length(ours) != theirs.length) {
        fail("another answer of the writer", call);
    }
    if (memcmp(state.bytes, their_state, state.length) != 0) {
        fail("the steps are written", call);
    }
    if (memcmp(events.bytes, their_events, events.length) != 0) {
        fail("another output", call);
    }
}

/* What a trace run writes besides its buffers, among marked bytes. */
static struct {
    uint8_t ahead[MARGIN];
    fretmere_tally tally;
    uint8_t between[MARGIN];
    fretmere_run run;
    uint8_t behind[MARGIN];
} lent;

static void set_tally(uint32_t start)
{
    memset(&lent, MARK, sizeof lent);
    for (size_t i = 0; i < FRETMERE_STEPS_MOST; i++) {
        lent.tally.steps[i] = start;
    }
    for (size_t a = 0; a < FRETMERE_ACTIONS; a++) {
        lent.tally.accepted[a] = lent.tally.suppressed[a] = lent.tally.inserted[a] = start;
    }
}

static bool all_marked(const uint8_t *bytes)
{
    for (size_t i = 0; i < MARGIN; i++) {
        if (bytes[i] != MARK) {
            return false;
        }
    }
    return true;
}

static bool same_tally(const guard_tally *theirs)
{
    return memcmp(lent.tally.steps, theirs->steps, sizeof theirs->steps) == 0 &&
           memcmp(lent.tally.accepted, theirs->accepted, sizeof theirs->accepted) == 0 &&
           memcmp(lent.tally.suppressed, theirs->suppressed, sizeof theirs->suppressed) == 0 &&
           memcmp(lent.tally.inserted, theirs->inserted, sizeof theirs->inserted) == 0;
}

/* A trace stands behind its policy, and the action says where the counts begin. */
static void compare_trace(uint8_t action, unsigned long call)
{
    const size_t end = policy_end(&policy);
    const uint8_t *const trace = policy.bytes + end;
    const size_t trace_length = policy.length - end;
    guard_tally tally;

    set_tally(tally_start(action));
    memcpy(tally.steps, lent.tally.steps, sizeof tally.steps);
    memcpy(tally.accepted, lent.tally.accepted, sizeof tally.accepted);
    memcpy(tally.suppressed, lent.tally.suppressed, sizeof tally.suppressed);
    memcpy(tally.inserted, lent.tally.inserted, sizeof tally.inserted);
    memcpy(their_state, state.bytes, state.length);
    memcpy(their_events, events.bytes, events.length);
    const guard_traced theirs = guard_trace(policy.bytes, end, trace, trace_length, their_state, state.length, their_events, events.length, &tally);
    const fretmere_answer ours =
        fretmere_trace(policy.bytes, end, trace, trace_length, state.bytes, state.length, events.bytes, events.length, &lent.tally, &lent.run);

    if (!same_refusal(ours, theirs.refusal, theirs.place) || lent.run.judged != theirs.judged || lent.run.events != theirs.events ||
        lent.run.status != theirs.status) {
        fail("another answer of the trace run", call);
    }
    if (memcmp(state.bytes, their_state, state.length) != 0 || memcmp(events.bytes, their_events, events.length) != 0) {
        fail("another buffer of the trace run", call);
    }
    if (!same_tally(&tally)) {
        fail("another tally", call);
    }
    if (!all_marked(lent.ahead) || !all_marked(lent.between) || !all_marked(lent.behind)) {
        fail("a byte beside the tally or the run is written", call);
    }
}

/* How many calls of a batch there were, and how many of them were trace runs. */
struct compared {
    unsigned long calls, traces;
};

static struct compared compare_batch(void)
{
    unsigned long calls = 0, traces = 0;

    for (int entry = getchar(); entry != EOF; entry = getchar(), calls++) {
        if (!read_field(&policy) || !read_field(&state) || !read_field(&events)) {
            fail("the batch ends in the middle of it", calls);
        }
        const int action = getchar();
        memcpy(kept, policy.bytes, policy.length);
        if (entry == CHECK) {
            compare_check(calls);
        } else if (entry == WRITE) {
            compare_write(calls);
        } else if (entry == TRACE) {
            compare_trace((uint8_t)action, calls);
            traces++;
        } else {
            compare_call(entry, (uint8_t)action, calls);
        }
        if (!surrounded(&policy) || !surrounded(&state) || !surrounded(&events)) {
            fail("a byte beside a buffer is written", calls);
        }
        if (memcmp(kept, policy.bytes, policy.length) != 0) {
            fail("the policy, the trace or the nodes are written", calls);
        }
    }
    return (struct compared){calls, traces};
}

static void expect(bool holds, const char *what)
{
    if (!holds) {
        printf("client: %s\n", what);
        exit(1);
    }
}

/* Policy L of 01: set {2}, counter 3; 0 next 1/4, 1 spend 1 2/3, 2 ok 0, 3 halt, 4 end. */
static const uint8_t L[] = {
    0, 82, 1, 1, 0, 5,
    1, 0, 0, 5, 0, 0, 0, 3, 0, 0, 0, 0, 0, 0, 0, 4,
    1, 0, 1, 4, 0, 0, 0, 0, 0, 0, 0, 0,
    6, 0, 2, 3, 0, 0, 0, 0, 0, 0, 0, 1,
    2, 0, 0, 0, 0, 0, 0, 0, 0, 0, 0, 0,
    8, 0, 0, 0, 0, 0, 0, 0, 0, 0, 0, 0,
    7, 0, 0, 0, 0, 0, 0, 0, 0, 0, 0, 0,
};

/* P1 and P2 of 01, with request 01: "82 bytes, sets {2} and empty"; "L on 1, 2, 2, 1: all accepted", and a third 2; "the fourth 2 halts".
   Then refusal 14. */
static void small_calls(void)
{
    uint8_t saved[FRETMERE_STATE_BYTES], room[FRETMERE_EVENT_BYTES];
    uint64_t regulated, effects;
    fretmere_answer answer;

    expect(fretmere_check(L, sizeof L, &regulated, &effects) == FRETMERE_NOT_REFUSED && regulated == 4 && effects == 0, "P1");
    answer = fretmere_check(L, sizeof L - 1, &regulated, &effects);
    expect(fretmere_refusal(answer) == FRETMERE_REFUSED_LENGTH && fretmere_place(answer) == FRETMERE_NO_PLACE, "a byte short");
    answer = fretmere_open(L, sizeof L, saved, sizeof saved, room, sizeof room);
    expect(fretmere_status(answer) == FRETMERE_RUNNING && fretmere_events(answer) == 0, "P2, opening");
    expect(fretmere_running_leaves(saved, sizeof saved) == 1, "a running leaf");
    for (const char *a = "\1\2\2\1\2"; *a != '\0'; a++) {
        answer = fretmere_offer(L, sizeof L, saved, sizeof saved, room, sizeof room, (uint8_t)*a);
        expect(fretmere_status(answer) == FRETMERE_RUNNING && fretmere_events(answer) == 1, "P2, an answer");
        expect(room[0] == FRETMERE_ACCEPTED && room[1] == (uint8_t)*a, "P2, an event");
        expect(fretmere_verdict(answer, room) == FRETMERE_ACCEPTED, "P2, a verdict");
    }
    answer = fretmere_offer(L, sizeof L, saved, sizeof saved, room, sizeof room, 2);
    expect(fretmere_status(answer) == FRETMERE_HALTED && fretmere_events(answer) == 0, "P2, the fourth 2");
    expect(fretmere_verdict(answer, room) == 0, "P2, no verdict");
    answer = fretmere_running_leaves(saved, sizeof saved);
    expect(fretmere_refusal(answer) == FRETMERE_NOT_REFUSED && fretmere_leaves(answer) == 0, "no running leaf");
    answer = fretmere_running_leaves(saved, sizeof saved - 1);
    expect(fretmere_refusal(answer) == FRETMERE_REFUSED_BUFFERS && fretmere_leaves(answer) == 0, "a state a byte short");
    answer = fretmere_offer(L, sizeof L, saved, sizeof saved, room, sizeof room, 2);
    expect(fretmere_refusal(answer) == FRETMERE_REFUSED_HALTED && fretmere_events(answer) == 0, "a halted root");
    answer = fretmere_open(L, sizeof L, saved, sizeof saved, room, sizeof room - 1);
    expect(fretmere_refusal(answer) == FRETMERE_REFUSED_BUFFERS && fretmere_place(answer) == FRETMERE_NO_PLACE, "a short event buffer");
}

/* Policy V of 01: set {4}; 0 next 1/3, 1 sup 2, 2 ins 3 to 0, 3 ins 3 to 4, 4 end. */
static const uint8_t V[] = {
    0, 82, 1, 1, 0, 5,
    1, 0, 0, 5, 0, 0, 0, 0, 0, 0, 0, 0, 0, 0, 0, 16,
    1, 0, 1, 3, 0, 0, 0, 0, 0, 0, 0, 0,
    3, 0, 2, 0, 0, 0, 0, 0, 0, 0, 0, 0,
    4, 3, 0, 0, 0, 0, 0, 0, 0, 0, 0, 0,
    4, 3, 4, 0, 0, 0, 0, 0, 0, 0, 0, 0,
    7, 0, 0, 0, 0, 0, 0, 0, 0, 0, 0, 0,
};

static bool steps_ran(const fretmere_tally *tally, const uint32_t counts[5])
{
    return memcmp(tally->steps, counts, 5 * sizeof *counts) == 0;
}

/* L halts on its fourth 2, with no closing, and the trace's last 2 is not judged. */
static void small_halting_trace(void)
{
    static const uint8_t trace[] = {1, 2, 2, 2, 2, 2};
    uint8_t saved[FRETMERE_STATE_BYTES], room[FRETMERE_EVENT_BYTES + 16];
    static fretmere_tally tally;
    fretmere_run run;
    const fretmere_answer answer = fretmere_trace(L, sizeof L, trace, sizeof trace, saved, sizeof saved, room, sizeof room, &tally, &run);

    expect(answer == FRETMERE_NOT_REFUSED && run.judged == 5 && run.events == 4 && run.status == FRETMERE_HALTED, "L's run");
    expect(memcmp(room, "\1\1\1\2\1\2\1\2", 8) == 0, "L's events");
    expect(steps_ran(&tally, (const uint32_t[]){4, 4, 3, 1, 0}), "L's steps");
    expect(tally.accepted[1] == 1 && tally.accepted[2] == 3 && tally.suppressed[2] == 0 && tally.inserted[2] == 0, "L's actions");
}

/* V is run over 4 twice, in one tally: each time suppressed 4, inserted 3, and 3 again in closing; then once more, with no room to close. */
static void small_traces(void)
{
    static const uint8_t trace[] = {4};
    uint8_t saved[FRETMERE_STATE_BYTES], room[FRETMERE_EVENT_BYTES + 16];
    static fretmere_tally tally;
    fretmere_run run;
    fretmere_answer answer;

    for (uint32_t times = 1; times <= 2; times++) {
        answer = fretmere_trace(V, sizeof V, trace, sizeof trace, saved, sizeof saved, room, sizeof room, &tally, &run);
        expect(answer == FRETMERE_NOT_REFUSED && run.judged == 1 && run.events == 3 && run.status == FRETMERE_ENDED, "V's run");
        expect(memcmp(room, "\2\4\3\3\3\3", 6) == 0, "V's events");
        expect(steps_ran(&tally, (const uint32_t[]){2 * times, times, times, times, times}), "V's steps");
        expect(tally.suppressed[4] == times && tally.inserted[3] == 2 * times && tally.accepted[3] == 0 && tally.accepted[4] == 0, "V's actions");
    }
    answer = fretmere_trace(V, sizeof V, trace, sizeof trace, saved, sizeof saved, room, FRETMERE_EVENT_BYTES + 1, &tally, &run);
    expect(fretmere_refusal(answer) == FRETMERE_REFUSED_ROOM && fretmere_place(answer) == FRETMERE_NO_PLACE, "no room to close");
    expect(run.judged == 1 && run.events == 2 && run.status == FRETMERE_RUNNING, "V's run before that");
    expect(steps_ran(&tally, (const uint32_t[]){5, 3, 3, 2, 2}), "V's steps before that");
}

/* L with a target of its step 2 outside the leaf: refused 6 at 2 by every function that checks, and nothing told besides. */
static void places(void)
{
    enum { STEPS = 22, STEP = 12, WRONG = 2, TARGET = 2 };
    uint8_t wrong[sizeof L], saved[FRETMERE_STATE_BYTES] = {0}, room[FRETMERE_EVENT_BYTES];
    static fretmere_tally tally;
    fretmere_run run = {7, 8, 9};
    uint64_t regulated, effects;

    memcpy(wrong, L, sizeof L);
    wrong[STEPS + STEP * WRONG + TARGET] = 5;
    const fretmere_answer answers[] = {
        fretmere_check(wrong, sizeof wrong, &regulated, &effects),
        fretmere_open(wrong, sizeof wrong, saved, sizeof saved, room, sizeof room),
        fretmere_offer(wrong, sizeof wrong, saved, sizeof saved, room, sizeof room, 2),
        fretmere_close(wrong, sizeof wrong, saved, sizeof saved, room, sizeof room),
        fretmere_write(wrong + STEPS - 16, 16, wrong + STEPS, sizeof wrong - STEPS, room, sizeof room),
        fretmere_trace(wrong, sizeof wrong, L, 0, saved, sizeof saved, room, sizeof room, &tally, &run),
    };
    for (size_t i = 0; i < sizeof answers / sizeof *answers; i++) {
        expect(fretmere_refusal(answers[i]) == FRETMERE_REFUSED_TARGET && fretmere_place(answers[i]) == WRONG, "6 at 2");
        expect(fretmere_status(answers[i]) == 0 && fretmere_events(answers[i]) == 0 && fretmere_length(answers[i]) == 0, "a refusal tells more");
    }
    expect(run.judged == 0 && run.events == 0 && run.status == 0, "a run that was not opened");
}

/* The header's helpers, on a leaf that inserts twice before its verdict and once after it: set {0}; 0 next 1/5, 1 ins 3 to 2, 2 ins 6 to 3,
   3 sup 4, 4 ins 9 to 0, 5 end. */
static void helpers(void)
{
    static const uint8_t node[16] = {1, 0, 0, 6, 0, 0, 0, 0, 0, 0, 0, 0, 0, 0, 0, 1};
    static const uint8_t steps[6 * 12] = {[0] = 1, [2] = 1, [3] = 5, [12] = 4, [13] = 3, [14] = 2, [24] = 4, [25] = 6, [26] = 3,
                                          [36] = 3, [38] = 4, [48] = 4, [49] = 9, [60] = 7};
    static const uint8_t expected[] = {FRETMERE_INSERTED, 3, FRETMERE_INSERTED, 6, FRETMERE_SUPPRESSED, 0, FRETMERE_INSERTED, 9};
    uint8_t file[FRETMERE_POLICY_MOST], saved[FRETMERE_STATE_BYTES], room[FRETMERE_EVENT_BYTES];
    size_t seen = 0;
    const size_t length = fretmere_length(fretmere_write(node, sizeof node, steps, sizeof steps, file, sizeof file));

    fretmere_open(file, length, saved, sizeof saved, room, sizeof room);
    const fretmere_answer answer = fretmere_offer(file, length, saved, sizeof saved, room, sizeof room, 0);
    fretmere_cursor cursor = fretmere_first(answer, room);

    expect(fretmere_verdict(answer, room) == FRETMERE_SUPPRESSED, "the verdict behind two inserts");
    for (; fretmere_next(&cursor); seen++) {
        expect(seen < 4 && cursor.kind == expected[2 * seen] && cursor.action == expected[2 * seen + 1], "an event by the cursor");
    }
    expect(seen == 4 && !fretmere_next(&cursor), "the cursor ends with the events");
}

int main(void)
{
    helpers();
    small_calls();
    small_halting_trace();
    small_traces();
    places();
    const struct compared batch = compare_batch();
    printf("client: the small calls and %lu of a batch, %lu of them runs over a trace, as they should be\n", batch.calls, batch.traces);
    return 0;
}
