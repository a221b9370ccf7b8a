/* fretmere.h: the guard as a library for C and C++. `make library` proves it and puts libfretmere.a, this header and a pkg-config file into
 * dist/; examples/scan-loop.c shows it in a scan cycle. The run over a trace is a library of its own, fretmere_trace.h.
 *
 * A policy file, a saved state and an event buffer are plain bytes that the caller keeps. Any bytes may be given: every call answers,
 * or refuses by number, and a refusal writes nothing. docs/FORMAT.md has each of them byte by byte.
 *
 * What the caller owes. Each pointer points to as many bytes as its length says. NULL is no buffer: it stands for no default, is not
 * looked for, and must not be given even if the length is 0. The buffers of one call do not overlap.
 *
 * What the library needs. It is x86-64 code and uses SSE registers, which a task that calls it must be allowed to. Of the C library it calls
 * memcpy and memset, nothing else. No call keeps a pointer, has memory of its own between calls, uses the heap or calls the system.
 *
 * Stack of a call, as measured with the older kit on the largest and the deepest policies (docs/BENCHMARKS.md): fretmere_check 1,192 bytes,
 * fretmere_open, fretmere_offer and fretmere_close at most 4,640, fretmere_write 7,928; with today's kit 1,160, at most 4,240, and 7,944.
 *
 * Calls at the same time. The policy is only read: calls that run at once may share it. State and event buffers are written: no two
 * calls at once may have one of these in common.
 *
 * The state during a call. It is working storage: a call cut short, by a power failure say, may leave it half written. So call on a
 * copy, and keep the copy once the call has answered: what is kept is then always the state after some whole call. */
#ifndef FRETMERE_H
#define FRETMERE_H

#include <stddef.h>
#include <stdint.h>

#ifdef __cplusplus
extern "C" {
#endif

/* The version of this header, of fretmere_trace.h and of the libraries that go with them. The number in the policy file's third byte is
 * another: the format's. */
#define FRETMERE_VERSION_MAJOR 2
#define FRETMERE_VERSION_MINOR 1
#define FRETMERE_VERSION_PATCH 0
#define FRETMERE_VERSION "2.1.0"

#define FRETMERE_POLICY_MOST 6646 /* the length of the longest file that can pass the check */
#define FRETMERE_STATE_BYTES 256  /* a state buffer has exactly this many bytes */
#define FRETMERE_EVENT_BYTES 512  /* an event buffer has at least this many */

/* Why a call was refused: the lowest number that applies. README.md says what to do about each. */
enum {
    FRETMERE_NOT_REFUSED = 0,
    FRETMERE_REFUSED_LENGTH = 1,       /* fewer than 6 bytes, or the length field differs from the bytes given */
    FRETMERE_REFUSED_VERSION = 2,      /* the version is not 1 */
    FRETMERE_REFUSED_COUNTS = 3,       /* the number of nodes or steps is out of range, or does not fit the length */
    FRETMERE_REFUSED_FIELD = 4,        /* a field of a node or a step is out of range, or is not used and not zero */
    FRETMERE_REFUSED_TREE = 5,         /* a child's number is wrong, or a node other than 0 is not a child exactly once */
    FRETMERE_REFUSED_TARGET = 6,       /* the step counts, a target or an acase set is wrong */
    FRETMERE_REFUSED_MODE = 7,         /* a step is never reached, is reached in two modes, or may not stand there */
    FRETMERE_REFUSED_BRANCH = 8,       /* an acase has a branch that no possible action takes */
    FRETMERE_REFUSED_INTERFERENCE = 9, /* one parallel side inserts or suppresses what the other regulates */
    FRETMERE_REFUSED_SPREAD = 10,      /* a node's spread, a bound on its inserts in one call, is above 255 */
    FRETMERE_REFUSED_BUFFERS = 11,     /* the state buffer is not 256 bytes, or the event buffer is under 512 */
    FRETMERE_REFUSED_STATE = 12,       /* the state does not fit the policy */
    FRETMERE_REFUSED_ACTION = 13,      /* the action is above 63 */
    FRETMERE_REFUSED_HALTED = 14,      /* the policy has halted */
    FRETMERE_REFUSED_ROOM = 15         /* the output is shorter than the file to be written, or under 512 event bytes are left to a trace run */
};

/* The status of the root, which is node 0 and stands for the whole policy. */
enum {
    FRETMERE_RUNNING = 1,
    FRETMERE_ENDED = 2,       /* accepts every action from now on, as do the next two */
    FRETMERE_ENDED_LEFT = 3,  /* an "or" whose left side has ended */
    FRETMERE_ENDED_RIGHT = 4, /* an "or" whose right side has ended */
    FRETMERE_HALTED = 5       /* every further action is refused */
};

/* An event is two bytes: what happened, then the action. */
enum { FRETMERE_ACCEPTED = 1, FRETMERE_SUPPRESSED = 2, FRETMERE_INSERTED = 3 };

/* The answer of every function: a refusal, or what the function tells. Read it by the functions below. */
typedef uint32_t fretmere_answer;

/* The refusal, or 0 if the call was answered. */
static inline unsigned fretmere_refusal(fretmere_answer answer) { return answer >> 24; }

/* Which record a refusal from 4 to 10 is about: the lowest-numbered one that breaks the rule. Nodes are counted from 0, and so are steps, over
 * the whole file. It is a node for 5, 9 and 10 and a step for 6, 7 and 8 (0 also where the step counts of the leaves do not add up). For 4
 * nodes come before steps: in a file of n nodes a place p below n is node p, and any other is step p - n. No other answer has a place. */
#define FRETMERE_NO_PLACE (-1)
static inline int fretmere_place(fretmere_answer answer)
{
    return fretmere_refusal(answer) == FRETMERE_NOT_REFUSED ? FRETMERE_NO_PLACE : (int)(answer & 0xFFFFFFu) - 1;
}

/* What a call tells that is not refused; 0 after a refusal. */
static inline unsigned fretmere_told(fretmere_answer answer) { return fretmere_refusal(answer) == FRETMERE_NOT_REFUSED ? answer : 0; }

/* After fretmere_open, fretmere_offer and fretmere_close, the root's status and the number of events; 0 after a refusal. */
static inline unsigned fretmere_status(fretmere_answer answer) { return fretmere_told(answer) >> 16; }
static inline unsigned fretmere_events(fretmere_answer answer) { return fretmere_told(answer) & 0xFFFFu; }

/* After fretmere_running_leaves, the count; 0 after a refusal. */
static inline unsigned fretmere_leaves(fretmere_answer answer) { return fretmere_told(answer); }

/* After fretmere_write, the length of the file; 0 after a refusal. */
static inline unsigned fretmere_length(fretmere_answer answer) { return fretmere_told(answer); }

/* The verdict on the offered action: FRETMERE_ACCEPTED or FRETMERE_SUPPRESSED, or 0 if there is none, because the call was refused or the
 * policy halted before its verdict. What is not accepted does not go to the drives. `events` is the buffer that fretmere_offer wrote. */
static inline unsigned fretmere_verdict(fretmere_answer answer, const uint8_t *events)
{
    unsigned i;
    for (i = 0; i < fretmere_events(answer); i++) {
        if (events[2 * i] != FRETMERE_INSERTED) {
            return events[2 * i];
        }
    }
    return 0;
}

/* The events of an answer, one after another:
 *     fretmere_cursor cursor = fretmere_first(answer, events);
 *     while (fretmere_next(&cursor)) { .. cursor.kind, cursor.action .. } */
typedef struct {
    const uint8_t *at;
    unsigned left;
    uint8_t kind, action;
} fretmere_cursor;

static inline fretmere_cursor fretmere_first(fretmere_answer answer, const uint8_t *events)
{
    fretmere_cursor cursor = {events, fretmere_events(answer), 0, 0};
    return cursor;
}

static inline int fretmere_next(fretmere_cursor *cursor)
{
    if (cursor->left == 0) {
        return 0;
    }
    cursor->kind = cursor->at[0];
    cursor->action = cursor->at[1];
    cursor->at += 2;
    cursor->left--;
    return 1;
}

/* Checks a policy file. Returns 0 and writes the root's two sets, bit a for action a: `regulated`, the actions that the policy acts on, and
 * `effects`, those that it may insert or suppress. Or refuses with 1 to 10, and writes nothing. The two pointers are not NULL, and
 * not equal. */
fretmere_answer fretmere_check(const uint8_t *policy, size_t policy_length, uint64_t *regulated, uint64_t *effects);

/* Opens the policy. Refusals 1 to 11. What the state buffer holds beforehand is not read; all of it is written. Events are written from
 * the event buffer's first byte on, and the bytes after the last event stay as they were. */
fretmere_answer fretmere_open(const uint8_t *policy, size_t policy_length, uint8_t *state, size_t state_length,
                              uint8_t *events, size_t events_length);

/* Offers an action. Refusals 1 to 14. The state is changed in place, and events are written as by fretmere_open. Among them is the verdict
 * on the action, accepted or suppressed, unless the policy halted first. */
fretmere_answer fretmere_offer(const uint8_t *policy, size_t policy_length, uint8_t *state, size_t state_length,
                               uint8_t *events, size_t events_length, uint8_t action);

/* Closes the policy: afterwards the policy has ended or halted. Refusals 1 to 12. The state is changed and events are written as by
 * fretmere_offer, without a verdict. */
fretmere_answer fretmere_close(const uint8_t *policy, size_t policy_length, uint8_t *state, size_t state_length,
                               uint8_t *events, size_t events_length);

/* Tells how many leaves of the policy still run, without a walk over the state: open, offer and close keep the count in it. The state is one
 * that they left, for the count is read and not tested. Refusal 11 if it is not FRETMERE_STATE_BYTES bytes. */
fretmere_answer fretmere_running_leaves(const uint8_t *state, size_t state_length);

/* Writes a policy file from its records. `nodes` holds the node records, 16 bytes each, and `steps` the step records, 12 bytes each, laid out
 * as in the file; the writer puts length, version and counts before them. The file begins at the output's first byte, and the bytes after
 * it stay as they were. The answer is its length, and fretmere_check passes it. FRETMERE_POLICY_MOST bytes of output are room for any file.
 * Refusals: 3 if nodes_length is no multiple of 16 or steps_length none of 12, or if there is no node, more than 31 nodes or more than 512
 * steps; 4 to 10 as fretmere_check would refuse the file; then 15. */
fretmere_answer fretmere_write(const uint8_t *nodes, size_t nodes_length, const uint8_t *steps, size_t steps_length,
                               uint8_t *out, size_t out_length);

#ifdef __cplusplus
}
#endif

#endif
