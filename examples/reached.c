/* reached.c: which steps of a policy real traces reach, and how often.
 *
 *     cc $(pkg-config --cflags fretmere_trace) reached.c $(pkg-config --libs fretmere_trace) -o reached
 *     reached POLICY TRACE..
 *
 * A trace is a file with a byte for each command. All traces are counted in one tally. For each it is printed how far the run over it came, and
 * at the end for each step of the policy how often it ran. Steps are numbered from 0 over the whole file.
 *
 * Exit status: 0 all traces were run over to their end, or until the policy halted; 1 one was not, or could not be read. */
#include "fretmere_trace.h"

#include <stdio.h>
#include <stdlib.h>

enum { TRACE_MOST = 1024 * 1024 };

static uint8_t policy[FRETMERE_POLICY_MOST + 1]; /* a byte more, so that a file that is too long is seen to be; so with a trace */
static uint8_t trace[TRACE_MOST + 1];
static uint8_t state[FRETMERE_STATE_BYTES];
static uint8_t events[4 * TRACE_MOST]; /* not room for any trace: if it runs out, refusal 15 says so */
static fretmere_tally tally;           /* all zeros before the first trace */

static size_t read_file(const char *path, uint8_t *bytes, size_t most)
{
    FILE *file = fopen(path, "rb");
    size_t length;

    if (file == NULL) {
        perror(path);
        exit(1);
    }
    length = fread(bytes, 1, most, file);
    fclose(file);
    return length;
}

/* Runs over a trace, and says how far it came. Returns whether no call was refused. */
static int run_over(const char *path, size_t policy_length)
{
    const size_t length = read_file(path, trace, sizeof trace);
    fretmere_run run;
    fretmere_answer answer;

    if (length > TRACE_MOST) {
        fprintf(stderr, "%s: more than %d commands\n", path, (int)TRACE_MOST);
        exit(1);
    }
    answer = fretmere_trace(policy, policy_length, trace, length, state, sizeof state, events, sizeof events, &tally, &run);
    printf("%s: %lu of %lu commands judged, %lu events, status %u", path, (unsigned long)run.judged, (unsigned long)length,
           (unsigned long)run.events, (unsigned)run.status);
    if (fretmere_refusal(answer) != FRETMERE_NOT_REFUSED) {
        printf(", refused %u", fretmere_refusal(answer));
        if (fretmere_place(answer) != FRETMERE_NO_PLACE) {
            printf(" at %d", fretmere_place(answer));
        }
    }
    printf("\n");
    return fretmere_refusal(answer) == FRETMERE_NOT_REFUSED;
}

int main(int words, char **word)
{
    size_t policy_length, steps, i;
    int whole = 1, w;

    if (words < 3) {
        fprintf(stderr, "reached POLICY TRACE..\n");
        return 1;
    }
    policy_length = read_file(word[1], policy, sizeof policy);
    for (w = 2; w < words; w++) {
        whole = run_over(word[w], policy_length) && whole;
    }
    steps = (size_t)policy[4] << 8 | policy[5]; /* the file's own count; of a file that was refused nothing ran */
    for (i = 0; i < steps && i < FRETMERE_STEPS_MOST; i++) {
        if (tally.steps[i] == 0) {
            printf("step %u never\n", (unsigned)i);
        } else {
            printf("step %u ran %lu\n", (unsigned)i, (unsigned long)tally.steps[i]);
        }
    }
    return whole ? 0 : 1;
}
