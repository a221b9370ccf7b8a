/* fretmere_trace.h: a policy run over a trace of commands, as a library for C and C++. `make library` proves it and puts
 * libfretmere_trace.a, this header and a pkg-config file into dist/; examples/reached.c shows which steps of a policy traces reach.
 *
 * It is for the desk, and an archive of its own: compiled together with the guard, its counting of steps would make every call of fretmere.h
 * slower. It needs no other archive, and a program may link libfretmere.a beside it.
 *
 * Refusals, statuses and events have the numbers, and answers the form, that fretmere.h gives them. What it says that a caller owes, that the
 * library needs, and of calls at the same time holds here too. The tally and the run are written, and overlap neither each other nor a buffer.
 *
 * Stack of a run, as measured with the older kit on the largest and the deepest policies (docs/BENCHMARKS.md): at most 6,280 bytes;
 * with today's kit 4,952. */
#ifndef FRETMERE_TRACE_H
#define FRETMERE_TRACE_H

#include "fretmere.h"

#ifdef __cplusplus
extern "C" {
#endif

#define FRETMERE_STEPS_MOST 512 /* a file has at most so many steps, numbered from 0 over the whole file */
#define FRETMERE_ACTIONS 64     /* actions are numbered 0 to 63 */

/* How often each step ran, and each action was accepted, suppressed and inserted. No count goes further than 4,294,967,295. */
typedef struct {
    uint32_t steps[FRETMERE_STEPS_MOST];
    uint32_t accepted[FRETMERE_ACTIONS];
    uint32_t suppressed[FRETMERE_ACTIONS];
    uint32_t inserted[FRETMERE_ACTIONS];
} fretmere_tally;

/* How far a run came. */
typedef struct {
    uint64_t judged; /* the actions judged, one on which the policy halted too */
    uint64_t events; /* the events written, of two bytes each */
    uint64_t status; /* the root's; 0 if the policy was not opened */
} fretmere_run;

/* The library knows both by their bytes alone: a compiler that lays them out in another way cannot compile this. */
typedef char fretmere_tally_has_2816_bytes[sizeof(fretmere_tally) == 2816 ? 1 : -1];
typedef char fretmere_run_has_24_bytes[sizeof(fretmere_run) == 24 ? 1 : -1];

/* Opens the policy, offers the actions of the trace, a byte each, and closes it, as fretmere_open, fretmere_offer and fretmere_close do. Each
 * call's events begin where the last call's ended. The run stops at the first refusal, or when the policy has halted, and then does not close it.
 *
 * Returns 0 if no call was refused, else the refusal: read it by fretmere_refusal and fretmere_place.
 * - Opening: 1 to 11, then 15. What the state buffer holds beforehand is not read; 11 is about its length alone.
 * - An action: 13, then 15. Closing: 15.
 * - 15, tried last, if fewer than FRETMERE_EVENT_BYTES bytes of the event buffer are left before the call. So a buffer of
 *   FRETMERE_EVENT_BYTES * (trace_length + 2) bytes is room for any trace. Most need little more than two bytes an action.
 *
 * The tally is brought up to date, not cleared: several traces may be counted in one. A step counts as the policy's rules run it, and an
 * action as its events say. `run` is written in every case. After a refusal it, the state, the events and the tally are those of the calls before;
 * a refused opening leaves all as it was, and `run` is three zeros. */
fretmere_answer fretmere_trace(const uint8_t *policy, size_t policy_length, const uint8_t *trace, size_t trace_length,
                               uint8_t *state, size_t state_length, uint8_t *events, size_t events_length,
                               fretmere_tally *tally, fretmere_run *run);

#ifdef __cplusplus
}
#endif

#endif
