/* scan-loop.c: the guard in a scan cycle. Each scan reads a command, guards it, keeps the new state safely, and drives the outputs.
 *
 *     cc $(pkg-config --cflags fretmere) scan-loop.c $(pkg-config --libs fretmere) -o scan-loop
 *     scan-loop POLICY STATE <commands
 *
 * What is yours in a controller is played here by files: a command is a number on a line of standard input, `stop` ends the recipe, and the
 * drives are standard output. If the input ends with no `stop`, that is a power failure: the next start goes on from the file STATE.
 *
 * Exit status: 0 the recipe was stopped, or the power failed; 1 the guard could not be started; 3 the policy has halted. */
#include "fretmere.h"

#include <stdio.h>
#include <stdlib.h>
#include <string.h>

static uint8_t policy[FRETMERE_POLICY_MOST + 1]; /* a byte more, so that a file that is too long is seen to be */
static size_t policy_length;
static uint8_t kept[FRETMERE_STATE_BYTES]; /* the state after the last whole call */
static uint8_t work[FRETMERE_STATE_BYTES]; /* the state during a call */
static uint8_t events[FRETMERE_EVENT_BYTES];
static const char *state_path;

static size_t read_file(const char *path, uint8_t *bytes, size_t most)
{
    FILE *file = fopen(path, "rb");
    size_t length = 0;

    if (file != NULL) {
        length = fread(bytes, 1, most, file);
        fclose(file);
    }
    return length;
}

/* The new state goes to a place of its own and takes the old one's name in one step, so that a whole state is there at every moment.
 * (Where the system holds writes back, force them out first: fsync on POSIX.) A controller without files has two places and a number
 * beside each: it writes the older place, its number last, and on a start takes the place with the higher number. */
static void keep(void)
{
    char new_path[1024];
    FILE *file;

    memcpy(kept, work, sizeof kept);
    snprintf(new_path, sizeof new_path, "%s.new", state_path);
    file = fopen(new_path, "wb");
    if (file == NULL || fwrite(kept, 1, sizeof kept, file) != sizeof kept || fclose(file) != 0 || rename(new_path, state_path) != 0) {
        perror(state_path);
        exit(1);
    }
}

/* What was accepted or inserted goes to the drives, in the order of the events. */
static void drive(fretmere_answer answer)
{
    fretmere_cursor event = fretmere_first(answer, events);

    while (fretmere_next(&event)) {
        if (event.kind != FRETMERE_SUPPRESSED) {
            printf("drive %u\n", event.action);
        }
    }
}

/* The state is kept before the drives move. If the power fails between the two, what the guard let out is not driven, and it is never driven
 * twice. If your plant would rather see a command twice than miss it, drive first. */
static void answered(fretmere_answer answer)
{
    keep();
    drive(answer);
    if (fretmere_status(answer) == FRETMERE_HALTED) {
        printf("halted: the recipe is stopped, somebody has to look\n");
        exit(3);
    }
}

/* Goes on from the kept state, or opens the policy if none is kept. */
static void start(void)
{
    fretmere_answer answer;

    if (read_file(state_path, kept, sizeof kept) == sizeof kept) {
        return;
    }
    answer = fretmere_open(policy, policy_length, work, sizeof work, events, sizeof events);
    if (fretmere_refusal(answer) != FRETMERE_NOT_REFUSED) {
        fprintf(stderr, "the policy is refused: %u", fretmere_refusal(answer));
        if (fretmere_place(answer) != FRETMERE_NO_PLACE) {
            fprintf(stderr, " at %d", fretmere_place(answer));
        }
        fputc('\n', stderr);
        exit(1);
    }
    answered(answer);
}

/* One scan. A refused command changes nothing and goes nowhere; a state that does not fit was kept under another policy. */
static void scan(uint8_t command)
{
    fretmere_answer answer;

    memcpy(work, kept, sizeof work);
    answer = fretmere_offer(policy, policy_length, work, sizeof work, events, sizeof events, command);
    if (fretmere_refusal(answer) == FRETMERE_REFUSED_ACTION) {
        printf("no such command: %u\n", command);
        return;
    }
    if (fretmere_refusal(answer) != FRETMERE_NOT_REFUSED) {
        fprintf(stderr, "the guard refuses to go on: %u\n", fretmere_refusal(answer));
        exit(1);
    }
    if (fretmere_verdict(answer, events) == FRETMERE_SUPPRESSED) {
        printf("held back %u\n", command);
    }
    answered(answer);
}

static void stop(void)
{
    fretmere_answer answer;

    memcpy(work, kept, sizeof work);
    answer = fretmere_close(policy, policy_length, work, sizeof work, events, sizeof events);
    if (fretmere_refusal(answer) != FRETMERE_NOT_REFUSED) {
        fprintf(stderr, "the guard refuses to close: %u\n", fretmere_refusal(answer));
        exit(1);
    }
    answered(answer);
    remove(state_path); /* the next recipe opens the policy anew */
}

int main(int words, char **word)
{
    char line[32];
    long command;

    if (words != 3) {
        fprintf(stderr, "scan-loop POLICY STATE <commands\n");
        return 1;
    }
    policy_length = read_file(word[1], policy, sizeof policy);
    state_path = word[2];
    start();
    while (fgets(line, sizeof line, stdin) != NULL) {
        if (strcmp(line, "stop\n") == 0) {
            stop();
            return 0;
        }
        command = strtol(line, NULL, 10);
        scan(command < 0 || command > 255 ? 255 : (uint8_t)command);
    }
    return 0;
}
