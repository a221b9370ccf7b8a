/* run.c: 01's program guardrun over the second guard; sentences of 01 and 02 stand in quotation marks. */
#include "guard.h"

#include <stdbool.h>
#include <stdio.h>

enum { MAX_POLICY = 6646 };

static uint8_t policy[MAX_POLICY], state[GUARD_STATE_BYTES], events[GUARD_EVENT_BYTES];
static size_t length;

/* "S is running, ended, left, right or halted." */
static const char *const STATUS[] = {
    [GUARD_RUNNING] = "running",   [GUARD_ENDED] = "ended",   [GUARD_ENDED_LEFT] = "left",
    [GUARD_ENDED_RIGHT] = "right", [GUARD_HALTED] = "halted",
};

/* "a line `acc a`, `sup a` or `ins a` per event in decimal" */
static const char *const EVENT[] = {
    [GUARD_ACCEPTED] = "acc", [GUARD_SUPPRESSED] = "sup", [GUARD_INSERTED] = "ins",
};

/* "a policy (the first two bytes say how many bytes, at most 6,646 taken)". With
 * fewer than two bytes, or fewer than said, what there is is taken. */
static void read_policy(void)
{
    length = fread(policy, 1, 2, stdin);
    if (length == 2) {
        const size_t said = (size_t)policy[0] << 8 | policy[1];
        const size_t taken = said > MAX_POLICY ? MAX_POLICY : said;
        if (taken > 2) {
            length += fread(policy + 2, 1, taken - 2, stdin);
        }
    }
}

static void say_events(guard_answer answer)
{
    for (unsigned i = 0; i < answer.events; i++) {
        printf("%s %u\n", EVENT[events[2 * i]], (unsigned)events[2 * i + 1]);
    }
}

/* "A refused policy prints only `refused N`; a refused action prints that line
 * and goes on." With a place "guardrun then prints `refused N at P`". */
static bool say_refusal(guard_answer answer)
{
    if (answer.refusal != 0 && answer.place.given) {
        printf("refused %u at %u\n", (unsigned)answer.refusal, (unsigned)answer.place.number);
    } else if (answer.refusal != 0) {
        printf("refused %u\n", (unsigned)answer.refusal);
    }
    return answer.refusal != 0;
}

static void run(void)
{
    guard_answer answer =
        guard_open(policy, length, state, sizeof state, events, sizeof events);
    bool halted;
    int action;

    if (say_refusal(answer)) {
        return;
    }
    printf("open %s\n", STATUS[answer.status]);
    say_events(answer);
    halted = answer.status == GUARD_HALTED;
    while (!halted && (action = getchar()) != EOF) {
        answer = guard_offer(policy, length, state, sizeof state, events, sizeof events,
                             (uint8_t)action);
        if (!say_refusal(answer)) {
            say_events(answer);
            halted = answer.status == GUARD_HALTED;
        }
    }
    if (halted) { /* "On a halt it stops reading and prints `close halted`." */
        puts("close halted");
        return;
    }
    answer = guard_close(policy, length, state, sizeof state, events, sizeof events);
    say_events(answer);
    printf("close %s\n", STATUS[answer.status]);
}

int main(void)
{
    read_policy();
    run();
    return fflush(stdout) == 0 && !ferror(stdin) && !ferror(stdout) ? 0 : 1;
}
