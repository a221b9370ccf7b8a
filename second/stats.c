/* stats.c: reads a batch on standard input, makes its calls and prints statistics of the draw. */
#include "field.h"
#include "guard.h"

#ifndef GUARD_GIVEN
#error "build with -DGUARD_GIVEN, guard.c too"
#endif

static struct field policy, state, events;

static struct {
    unsigned long calls, answered, with_events, changing;
    unsigned long entries[6], answered_by[6], refusals[15], statuses[7];
    unsigned long write_refusals[16], short_refusals[16], room[3];
    unsigned long at_0[16], above_0[16], places[16], most_place[16], in_steps[2];
    bool places_seen[16][UINT16_MAX + 1];
    unsigned long kinds[8], nodes[32], steps[6], step_kinds[9], status_by_node[7];
    unsigned long event_counts[12], event_kinds[4], most_events, verdict_halts;
    unsigned long buffers[4], state_lengths[3], fronts[8], running[GUARD_MAX_NODES + 1], fewer[4];
    unsigned long unopened[16], unopened_alone[16], run_ends[8], run_statuses[7], starts[3];
    unsigned long short_runs[16];
    unsigned long trace_lengths[12], judged[12], past_end, run_events[4], at_limit, exact;
} seen;

/* How a trace run that opened its policy ended, in seen.run_ends. */
enum {
    OPENED_HALTED = 1,
    HALTED_BY_ACTION,
    REFUSED_ACTION,
    NO_ROOM_FOR_ACTION,
    NO_ROOM_TO_CLOSE,
    CLOSED,
    CLOSED_ENDED
};

/* Nodes and steps of a policy that passed. */
static void count_policy(const uint8_t *file)
{
    const unsigned n = file[3];
    const unsigned m = (unsigned)file[4] << 8 | file[5];

    seen.nodes[n]++;
    seen.steps[m == 0 ? 0 : m < 16 ? 1 : m < 64 ? 2 : m < 256 ? 3 : m < 512 ? 4 : 5]++;
    for (unsigned k = 0; k < n; k++) {
        seen.kinds[file[6 + 16 * k]]++;
    }
    for (unsigned s = 0; s < m; s++) {
        seen.step_kinds[file[6 + 16 * n + 12 * s]]++;
    }
}

static unsigned bucket(unsigned count)
{
    static const unsigned TOPS[] = {0, 1, 2, 3, 4, 7, 15, 31, 63, 127, 254, 256};
    unsigned b = 0;

    while (count > TOPS[b]) {
        b++;
    }
    return b;
}

/* The place of a refused call; n is the number of nodes. */
static void count_place(uint8_t refusal, guard_place place, unsigned n)
{
    if (!place.given) {
        return;
    }
    seen.at_0[refusal] += place.number == 0;
    seen.above_0[refusal] += place.number > 0;
    seen.places[refusal] += !seen.places_seen[refusal][place.number];
    seen.places_seen[refusal][place.number] = true;
    if (place.number > seen.most_place[refusal]) {
        seen.most_place[refusal] = place.number;
    }
    if (refusal == 4) {
        seen.in_steps[place.number < n ? 0 : 1]++;
    }
}

/* What is counted of every entry; file is the policy of an answered call. */
static bool count_call(int entry, uint8_t refusal, const uint8_t *file)
{
    seen.calls++;
    seen.entries[entry]++;
    if (refusal != 0) {
        return false;
    }
    seen.answered++;
    seen.answered_by[entry]++;
    count_policy(file);
    return true;
}

/* A write, whose fields are nodes, steps and output. */
static void count_write(void)
{
    const guard_written written = guard_write(policy.bytes, policy.length, state.bytes,
                                              state.length, events.bytes, events.length);

    seen.write_refusals[written.refusal]++;
    count_place(written.refusal, written.place, (unsigned)(policy.length / 16));
    if (6 + policy.length + state.length > events.length) {
        seen.short_refusals[written.refusal]++;
    }
    if (count_call(WRITE, written.refusal, events.bytes)) {
        seen.room[events.length == written.length ? 0 : events.length < MAX_FIELD ? 1 : 2]++;
    }
}

/* Refusal 11: 1 the state's length, 2 the events', 3 both; of states those of 248
 * bytes, shorter and longer ones. */
static void count_lengths(void)
{
    const bool bad_state = state.length != GUARD_STATE_BYTES;

    seen.buffers[bad_state + 2 * (events.length < GUARD_EVENT_BYTES)]++;
    if (bad_state) {
        seen.state_lengths[state.length == 248 ? 0 : state.length < GUARD_STATE_BYTES ? 1 : 2]++;
    }
}

/* Refusal 12: 1 a byte before the count isn't zero, 2 the count is wrong (both are 3),
 * and 4 if the records don't fit under a right front either. A fitting state and an
 * action above 63 are refused 13. */
static void count_misfit(void)
{
    static uint8_t mended[GUARD_STATE_BYTES];
    unsigned running = 0, cause = 0;

    memcpy(mended, state.bytes, sizeof mended);
    for (unsigned k = 0; k < policy.bytes[3]; k++) {
        running += policy.bytes[6 + 16 * k] == 1 && mended[8 + 8 * k] == GUARD_RUNNING;
    }
    for (unsigned i = 0; i < 7; i++) {
        cause |= mended[i] != 0 ? 1 : 0;
        mended[i] = 0;
    }
    cause |= mended[7] != running ? 2 : 0;
    mended[7] = (uint8_t)running;
    cause |= guard_offer(policy.bytes, policy.length, mended, sizeof mended, events.bytes,
                         events.length, 64).refusal == 12 ? 4 : 0;
    seen.fronts[cause]++;
}

/* What the panel reads after an answered call, and whether it is less than before. */
static void count_running(int entry, const uint8_t *before)
{
    const unsigned leaves = guard_running_leaves(state.bytes, state.length).leaves;

    seen.running[leaves]++;
    seen.fewer[entry] += entry != OPEN && leaves < before[7];
}

static void count_answer(int entry, guard_answer answer, bool changed)
{
    seen.refusals[answer.refusal]++;
    count_place(answer.refusal, answer.place, policy.bytes[3]);
    if (answer.refusal == 11) {
        count_lengths();
    } else if (answer.refusal == 12) {
        count_misfit();
    }
    if (!count_call(entry, answer.refusal, policy.bytes) || entry == CHECK) {
        return;
    }
    seen.statuses[answer.status]++;
    seen.with_events += answer.events > 0;
    seen.changing += changed || answer.events > 1;
    seen.event_counts[bucket(answer.events)]++;
    if (answer.events > seen.most_events) {
        seen.most_events = answer.events;
    }
    bool verdict = false;
    for (unsigned i = 0; i < answer.events; i++) {
        seen.event_kinds[events.bytes[2 * i]]++;
        verdict = verdict || events.bytes[2 * i] != GUARD_INSERTED;
    }
    seen.verdict_halts += entry == OFFER && !verdict;
}

/* Makes the calls of a trace run one by one, as far as its actions were judged. Answers
 * the root's status then. */
static uint8_t replay(size_t end, const guard_traced *traced)
{
    static uint8_t own_state[GUARD_STATE_BYTES], own_events[GUARD_EVENT_BYTES];
    guard_answer answer = guard_open(policy.bytes, end, own_state, sizeof own_state, own_events,
                                     sizeof own_events);

    for (size_t i = 0; i < traced->judged; i++) {
        seen.past_end += answer.status != GUARD_RUNNING;
        answer = guard_offer(policy.bytes, end, own_state, sizeof own_state, own_events,
                             sizeof own_events, policy.bytes[end + i]);
    }
    return answer.status;
}

/* How a run that opened ended; status is the root's before closing. */
static unsigned run_end(const guard_traced *traced, uint8_t status, size_t actions)
{
    if (traced->refusal == 13) {
        return REFUSED_ACTION;
    }
    if (traced->refusal == 15) {
        return traced->judged < actions ? NO_ROOM_FOR_ACTION : NO_ROOM_TO_CLOSE;
    }
    if (status == GUARD_HALTED) {
        return traced->judged == 0 ? OPENED_HALTED : HALTED_BY_ACTION;
    }
    return status == GUARD_RUNNING ? CLOSED : CLOSED_ENDED;
}

/* Would the same run with one byte fewer for its events have been refused? */
static bool fits_exactly(size_t end)
{
    static uint8_t own_state[GUARD_STATE_BYTES], own_events[MAX_FIELD];
    static guard_tally own_tally;

    return guard_trace(policy.bytes, end, policy.bytes + end, policy.length - end, own_state,
                       sizeof own_state, own_events, events.length - 1, &own_tally).refusal == 15;
}

/* How many counts began below their limit and have come to it. */
static unsigned long count_limits(const guard_tally *tally, uint32_t start)
{
    const uint32_t *const counts[] = {tally->steps, tally->accepted, tally->suppressed,
                                      tally->inserted};
    unsigned long limits = 0;

    for (unsigned i = 0; i < 4; i++) {
        for (unsigned k = 0; k < (i == 0 ? GUARD_MAX_STEPS : GUARD_ACTIONS); k++) {
            limits += counts[i][k] == UINT32_MAX && start < UINT32_MAX;
        }
    }
    return limits;
}

/* A run that has opened its policy. */
static void count_opened(const guard_traced *traced, size_t end)
{
    const size_t actions = policy.length - end;
    unsigned long given[8];

    memcpy(given, guard_given, sizeof given);
    const uint8_t status = replay(end, traced);

    seen.run_ends[run_end(traced, status, actions)]++;
    seen.run_statuses[traced->status]++;
    seen.trace_lengths[bucket(actions < 256 ? (unsigned)actions : 256)]++;
    seen.judged[bucket(traced->judged < 256 ? traced->judged : 256)]++;
    seen.exact += traced->refusal == 0 && fits_exactly(end);
    memcpy(guard_given, given, sizeof given); /* what was run twice counts once */
    for (uint32_t i = 0; i < traced->events; i++) {
        seen.run_events[events.bytes[2 * i]]++;
    }
}

static void set_counts(uint32_t *counts, unsigned how_many, uint32_t start)
{
    for (unsigned i = 0; i < how_many; i++) {
        counts[i] = start;
    }
}

/* A trace run, whose trace is behind its policy. */
static void count_trace(uint8_t action)
{
    const size_t end = policy_end(&policy);
    const uint32_t start = tally_start(action);
    guard_tally tally;

    set_counts(tally.steps, GUARD_MAX_STEPS, start);
    set_counts(tally.accepted, GUARD_ACTIONS, start);
    set_counts(tally.suppressed, GUARD_ACTIONS, start);
    set_counts(tally.inserted, GUARD_ACTIONS, start);
    const guard_traced traced =
        guard_trace(policy.bytes, end, policy.bytes + end, policy.length - end, state.bytes,
                    state.length, events.bytes, events.length, &tally);
    count_place(traced.refusal, traced.place, policy.bytes[3]);
    (void)count_call(TRACE, traced.refusal, policy.bytes);
    seen.short_runs[traced.refusal] += events.length - 2 * traced.events < GUARD_EVENT_BYTES;
    seen.starts[action == 0 ? 0 : action <= 6 ? 1 : 2]++;
    seen.at_limit += count_limits(&tally, start);
    if (traced.opened) {
        count_opened(&traced, end);
    } else {
        seen.unopened[traced.refusal]++;
        seen.unopened_alone[traced.refusal] += policy.length == end;
    }
}

static bool one_call(int entry)
{
    static uint8_t before[MAX_FIELD];
    guard_answer answer = {0};

    if (!read_field(&policy) || !read_field(&state) || !read_field(&events)) {
        return false;
    }
    const int action = getchar();
    if (entry == WRITE) {
        count_write();
        return true;
    }
    if (entry == TRACE) {
        count_trace((uint8_t)action);
        return true;
    }
    for (size_t i = 0; i < state.length; i++) {
        before[i] = state.bytes[i];
    }
    if (entry == CHECK) {
        const guard_sets sets = guard_check(policy.bytes, policy.length);
        answer.refusal = sets.refusal;
        answer.place = sets.place;
    } else if (entry == OPEN) {
        answer = guard_open(policy.bytes, policy.length, state.bytes, state.length,
                            events.bytes, events.length);
    } else if (entry == OFFER) {
        answer = guard_offer(policy.bytes, policy.length, state.bytes, state.length,
                             events.bytes, events.length, (uint8_t)action);
    } else {
        answer = guard_close(policy.bytes, policy.length, state.bytes, state.length,
                             events.bytes, events.length);
    }
    bool changed = false;
    for (size_t i = 0; i < state.length; i++) {
        changed = changed || before[i] != state.bytes[i];
    }
    count_answer(entry, answer, changed);
    if (entry != CHECK && answer.refusal == 0) {
        count_running(entry, before);
    }
    return true;
}

static void print_row(const char *name, const unsigned long *counts, unsigned from, unsigned to)
{
    printf("%s:", name);
    for (unsigned i = from; i <= to; i++) {
        if (counts[i] != 0) {
            printf(" %u:%lu", i, counts[i]);
        }
    }
    printf("\n");
}

static void print_runs(void)
{
    print_row("trace runs refused at opening", seen.unopened, 1, 15);
    print_row("of them without an action", seen.unopened_alone, 1, 15);
    print_row("other trace runs (1 opened halted, 2 halted by an action, 3 refused 13, 4 refused "
              "15 at an action, 5 refused 15 at closing, 6 closed, 7 closed with an ended root)",
              seen.run_ends, 1, 7);
    print_row("trace runs refused, or not (0), with under 512 event bytes left", seen.short_runs,
              0, 15);
    print_row("root statuses after runs that opened", seen.run_statuses, 1, 5);
    print_row("their traces, in 0 1 2 3 4 -7 -15 -31 -63 -127 -254 more", seen.trace_lengths, 0,
              11);
    print_row("actions judged, in 0 1 2 3 4 -7 -15 -31 -63 -127 -254 more", seen.judged, 0, 11);
    print_row("their events (1 acc, 2 sup, 3 ins)", seen.run_events, 1, 3);
    printf("actions judged once the root had ended %lu; not refused but with one byte fewer %lu\n",
           seen.past_end, seen.exact);
    print_row("where the counts of all trace runs began (0 at 0, 1 up to 6 below 2^32, 2 lower)",
              seen.starts, 0, 2);
    printf("counts that began below 4294967295 and have come to it %lu\n", seen.at_limit);
}

int main(void)
{
    for (int entry = getchar(); entry != EOF; entry = getchar()) {
        if (entry > TRACE || !one_call(entry)) {
            fputs("stats: broken input\n", stderr);
            return 1;
        }
    }
    printf("calls %lu, answered %lu, with events %lu, changing state or more than one event %lu\n",
           seen.calls, seen.answered, seen.with_events, seen.changing);
    print_row("calls by entry (0 check, 1 open, 2 offer, 3 close, 4 write, 5 trace run)",
              seen.entries, 0, 5);
    print_row("answered by entry", seen.answered_by, 0, 5);
    print_row("refusals of entries 0 to 3", seen.refusals, 1, 14);
    print_row("refusals of writes", seen.write_refusals, 1, 15);
    print_row("refusals of writes whose output is too short", seen.short_refusals, 1, 15);
    print_row("refusals of any entry at place 0", seen.at_0, 1, 15);
    print_row("refusals of any entry at a place above 0", seen.above_0, 1, 15);
    print_row("different places by refusal", seen.places, 1, 15);
    print_row("greatest place by refusal", seen.most_place, 1, 15);
    print_row("places of refusal 4 (0 a node, 1 a step)", seen.in_steps, 0, 1);
    print_row("refusal 11 (1 the state's length, 2 the events', 3 both)", seen.buffers, 1, 3);
    print_row("state's length in refusal 11 (0 248 bytes, 1 other less than 256, 2 more)",
              seen.state_lengths, 0, 2);
    print_row("refusal 12 (1 a byte before the count, 2 the count, 4 the records, and sums)",
              seen.fronts, 0, 7);
    print_row("running leaves after answered calls", seen.running, 0, GUARD_MAX_NODES);
    print_row("calls that leave fewer leaves running, by entry", seen.fewer, 0, 3);
    print_row("outputs of writes answered (0 exact, 1 longer, 2 the longest)", seen.room, 0, 2);
    print_runs();
    print_row("root statuses answered", seen.statuses, 1, 5);
    print_row("events (1 acc, 2 sup, 3 ins)", seen.event_kinds, 1, 3);
    print_row("events per answered call, in 0 1 2 3 4 -7 -15 -31 -63 -127 -254 -256",
              seen.event_counts, 0, 11);
    printf("most events in a call %lu; offers without a verdict %lu\n", seen.most_events,
           seen.verdict_halts);
    print_row("node kinds in answered calls", seen.kinds, 1, 7);
    print_row("step kinds in answered calls", seen.step_kinds, 1, 8);
    print_row("nodes per answered call", seen.nodes, 1, 31);
    print_row("steps, in 0 -15 -63 -255 -511 512", seen.steps, 0, 5);
    printf("inserts given on, kind 5: accepted %lu, suppressed %lu, halted %lu\n",
           guard_given[0], guard_given[1], guard_given[2]);
    printf("inserts given on, kind 7: accepted %lu, suppressed %lu, halted %lu\n",
           guard_given[3], guard_given[4], guard_given[5]);
    printf("nodes decided by an insert: kind 5 %lu, kind 7 %lu\n", guard_given[6],
           guard_given[7]);
    return 0;
}
