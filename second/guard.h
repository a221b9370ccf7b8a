/* guard.h: the four entry points of the policy guard of 01, and the writer, the count and the trace run of 02, over plain buffers with lengths. */
#ifndef GUARD_H
#define GUARD_H

#include <stdbool.h>
#include <stddef.h>
#include <stdint.h>

#define GUARD_MAX_NODES 31u
#define GUARD_MAX_STEPS 512u
#define GUARD_ACTIONS 64u /* "Actions are numbers 0 to 63." */
#define GUARD_STATE_BYTES 256u /* 02, Req 04: "8 new bytes in front", then 8 per node number */
#define GUARD_EVENT_BYTES 512u /* "event buffer is under 512" is refused */

/* "1 running, 2 ended, 3 ended left, 4 ended right, 5 halted, 6 dropped." */
enum guard_status {
    GUARD_RUNNING = 1,
    GUARD_ENDED = 2,
    GUARD_ENDED_LEFT = 3,
    GUARD_ENDED_RIGHT = 4,
    GUARD_HALTED = 5,
    GUARD_DROPPED = 6
};

/* "Events are two bytes: 1 accepted, 2 suppressed, 3 inserted; then the action." */
enum guard_event { GUARD_ACCEPTED = 1, GUARD_SUPPRESSED = 2, GUARD_INSERTED = 3 };

/* "A set is 64 bits, bit a standing for action a." */
typedef struct {
    uint64_t bits;
} guard_set;

/* 02, Req 03: "Refusals 4 to 10 shall also carry a place: the lowest-numbered node
 * or step that breaks that rule." The number is to be read only where there is a
 * place: with a refusal 4 to 10, and with no other answer. It is a node's for 5, 9
 * and 10, a step's "over the whole file" for 6 to 8; "for 4, nodes come before
 * steps, and step i counts as n + i". */
typedef struct {
    bool given;
    uint16_t number;
} guard_place;

/* "The check's answer carries either the root's two sets or a refusal number."
 * refusal is 0, or 1 to 10; with a refusal both sets are empty. */
typedef struct {
    uint8_t refusal;
    guard_place place;
    guard_set regulated;
    guard_set effect;
} guard_sets;

/* "The answer is the event count and the root's status."
 * refusal is 0, or 1 to 14; with a refusal events and status are 0 and both
 * buffers keep every byte. */
typedef struct {
    uint8_t refusal;
    uint8_t status;
    uint16_t events;
    guard_place place;
} guard_answer;

/* refusal is 0 and length the file's, or refusal is 3 to 10 or 15 and length 0. A
 * place is that of the file that would be written. */
typedef struct {
    uint8_t refusal;
    uint16_t length;
    guard_place place;
} guard_written;

/* refusal is 0 and leaves the count of running leaves, or refusal is 11 and leaves 0. */
typedef struct {
    uint8_t refusal;
    uint8_t leaves;
} guard_count;

/* 02, Req 05: "for each step how often it ran, for each action how often it was
 * accepted, suppressed or inserted; counts stop at 4,294,967,295". Steps are numbered
 * over the whole file. */
typedef struct {
    uint32_t steps[GUARD_MAX_STEPS];
    uint32_t accepted[GUARD_ACTIONS];
    uint32_t suppressed[GUARD_ACTIONS];
    uint32_t inserted[GUARD_ACTIONS];
} guard_tally;

/* How a trace run came out. refusal is that of the call that stopped it: 1 to 11 or 15
 * of opening, 13 or 15 of an action, 15 of closing; it is 0 where none did. With a
 * refused opening the policy was not opened and judged, events and status are 0; else
 * they are what the calls before the refused one left: "the number of actions judged,
 * a halting one too", the events written in all, the root's status. */
typedef struct {
    uint8_t refusal;
    bool opened;
    uint8_t status;
    guard_place place;
    uint32_t judged;
    uint32_t events;
} guard_traced;

/* A buffer that is written to must not overlap another. A buffer of length 0 may
 * be a null pointer. */

/* Refusals 1 to 10. Writes nothing. */
guard_sets guard_check(const uint8_t *policy, size_t policy_length);

/* Refusals 1 to 11. Overwrites the whole state; what it held is not read. */
guard_answer guard_open(const uint8_t *policy, size_t policy_length,
                        uint8_t *state, size_t state_length,
                        uint8_t *events, size_t events_length);

/* Refusals 1 to 14. */
guard_answer guard_offer(const uint8_t *policy, size_t policy_length,
                         uint8_t *state, size_t state_length,
                         uint8_t *events, size_t events_length, uint8_t action);

/* Refusals 1 to 12. */
guard_answer guard_close(const uint8_t *policy, size_t policy_length,
                         uint8_t *state, size_t state_length,
                         uint8_t *events, size_t events_length);

/* How many leaves still run, from a state that a call has left: its byte 7, and no
 * other byte is read. Refusal 11 if the state is not 256 bytes, and no other. */
guard_count guard_running_leaves(const uint8_t *state, size_t state_length);

/* Writes the file of these records, "laid out as in the file". Refusals 3 to 10
 * and 15; a refusal writes nothing, and "output bytes after the file stay". */
guard_written guard_write(const uint8_t *nodes, size_t nodes_length,
                          const uint8_t *steps, size_t steps_length,
                          uint8_t *out, size_t out_length);

/* "Run opening, the trace's actions and closing, and write all events one after
 * another into one lent buffer"; the trace is one byte per action. What the state held
 * is not read; afterwards it is what the last call that wasn't refused left, and so are
 * events and tally: "what was written before stays". A refused opening writes nothing.
 * The tally is brought up to date, not cleared. A trace and a buffer of events are each
 * shorter than 4 GiB. */
guard_traced guard_trace(const uint8_t *policy, size_t policy_length,
                         const uint8_t *trace, size_t trace_length,
                         uint8_t *state, size_t state_length,
                         uint8_t *events, size_t events_length, guard_tally *tally);

#ifdef GUARD_GIVEN
/* Counts of inserts given to a right side, for the statistics of a draw only:
 * kind 5 accepted, suppressed, halted; kind 7 the same; then nodes decided by
 * an insert, kind 5 and kind 7. */
extern unsigned long guard_given[8];
#endif

#endif
