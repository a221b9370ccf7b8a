/* test.c: 01's P1 to P11, its guardrun example and some edges, asserted against the guard; the places of refusals; the count in the state; the
 * trace run and the writer, both also on files it is named. */
#include "guard.h"

#include <stdio.h>
#include <stdlib.h>
#include <string.h>

static unsigned checks;

#define EXPECT(claim)                                                       \
    do {                                                                    \
        checks++;                                                           \
        if (!(claim)) {                                                     \
            printf("line %d fails: %s\n", __LINE__, #claim);                \
            exit(1);                                                        \
        }                                                                   \
    } while (0)

/* A file under construction: nodes first, then steps. */
struct file {
    uint8_t bytes[8192];
    size_t length;
};

static void start(struct file *f, unsigned n)
{
    memset(f, 0, sizeof *f);
    f->bytes[2] = 1;
    f->bytes[3] = (uint8_t)n;
    f->length = 6 + 16u * n;
}

static void put(uint8_t *at, uint64_t number, unsigned bytes)
{
    for (unsigned i = 0; i < bytes; i++) {
        at[i] = (uint8_t)(number >> 8 * (bytes - 1 - i));
    }
}

static void node(struct file *f, unsigned k, unsigned kind, unsigned left, unsigned right,
                 unsigned steps, uint32_t counter, uint64_t set)
{
    uint8_t *at = f->bytes + 6 + 16u * k;

    at[0] = (uint8_t)kind;
    at[1] = (uint8_t)left;
    at[2] = (uint8_t)right;
    at[3] = (uint8_t)steps;
    put(at + 4, counter, 4);
    put(at + 8, set, 8);
}

static void step(struct file *f, unsigned kind, unsigned action, unsigned first,
                 unsigned second, uint64_t operand)
{
    uint8_t *at = f->bytes + f->length;

    at[0] = (uint8_t)kind;
    at[1] = (uint8_t)action;
    at[2] = (uint8_t)first;
    at[3] = (uint8_t)second;
    put(at + 4, operand, 8);
    f->length += 12;
}

static void finish(struct file *f)
{
    put(f->bytes, f->length, 2);
    put(f->bytes + 4, (f->length - 6 - 16u * f->bytes[3]) / 12, 2);
}

#define BIT(a) (UINT64_C(1) << (a))

/* The small policies of 01 as nodes with their steps. */
static void add(struct file *f, unsigned k, char which)
{
    switch (which) {
    case 'L':
        node(f, k, 1, 0, 0, 5, 3, BIT(2));
        step(f, 1, 0, 1, 4, 0);
        step(f, 6, 0, 2, 3, 1);
        step(f, 2, 0, 0, 0, 0);
        step(f, 8, 0, 0, 0, 0);
        step(f, 7, 0, 0, 0, 0);
        break;
    case 'V':
    case 'v': /* v is V' */
        node(f, k, 1, 0, 0, 5, 0, which == 'V' ? BIT(4) : BIT(5));
        step(f, 1, 0, 1, 3, 0);
        step(f, 3, 0, 2, 0, 0);
        step(f, 4, which == 'V' ? 3 : 6, 0, 0, 0);
        step(f, 4, which == 'V' ? 3 : 6, 4, 0, 0);
        step(f, 7, 0, 0, 0, 0);
        break;
    case 'W':
        node(f, k, 1, 0, 0, 3, 0, BIT(3));
        step(f, 1, 0, 1, 2, 0);
        step(f, 3, 0, 0, 0, 0);
        step(f, 7, 0, 0, 0, 0);
        break;
    case 'T':
        node(f, k, 2, 0, 0, 0, 0, 0);
        break;
    default: /* 'U' */
        node(f, k, 3, 0, 0, 0, 0, 0);
        break;
    }
}

static void one(struct file *f, char which)
{
    start(f, 1);
    add(f, 0, which);
    finish(f);
}

static void two(struct file *f, unsigned kind, char left, char right)
{
    start(f, 3);
    node(f, 0, kind, 1, 2, 0, 0, 0);
    add(f, 1, left);
    add(f, 2, right);
    finish(f);
}

/* A session: what one call left behind, as text: "a2 s4 i3", then the status. */
struct session {
    struct file file;
    uint8_t state[GUARD_STATE_BYTES];
    uint8_t events[GUARD_EVENT_BYTES];
    char text[4096];
};

/* A refusal as text: "9 at 0" with a place, "3" without; "0" is none. */
static const char *named(uint8_t refusal, guard_place place)
{
    static char text[32];

    EXPECT(place.given == (refusal >= 4 && refusal <= 10));
    if (place.given) {
        sprintf(text, "%u at %u", refusal, place.number);
    } else {
        sprintf(text, "%u", refusal);
    }
    return text;
}

/* Node k's record in the state. */
static uint8_t *record(struct session *s, unsigned k)
{
    return s->state + 8 + 8u * k;
}

/* 02, Req 04: "8 new bytes in front, the last one the count, the others zero". */
static unsigned running_leaves(struct session *s)
{
    unsigned running = 0;

    for (unsigned k = 0; k < s->file.bytes[3]; k++) {
        running += s->file.bytes[6 + 16u * k] == 1 && record(s, k)[0] == GUARD_RUNNING;
    }
    for (unsigned i = 0; i < 7; i++) {
        EXPECT(s->state[i] == 0);
    }
    EXPECT(s->state[7] == running);
    return running;
}

static const char *tell(struct session *s, guard_answer answer)
{
    char *at = s->text;

    if (answer.refusal != 0) {
        EXPECT(answer.events == 0 && answer.status == 0);
        sprintf(at, "refused %s", named(answer.refusal, answer.place));
        return s->text;
    }
    EXPECT(!answer.place.given);
    for (unsigned i = 0; i < answer.events; i++) {
        at += sprintf(at, "%c%u ", "?asi"[s->events[2 * i]], s->events[2 * i + 1]);
    }
    for (unsigned i = 2u * answer.events; i < GUARD_EVENT_BYTES; i++) {
        EXPECT(s->events[i] == 0xA5);
    }
    EXPECT(answer.status == record(s, 0)[0]);
    const guard_count count = guard_running_leaves(s->state, sizeof s->state);
    EXPECT(count.refusal == 0 && count.leaves == running_leaves(s));
    EXPECT((count.leaves > 0) == (answer.status == GUARD_RUNNING));
    sprintf(at, "=%u", answer.status);
    return s->text;
}

static const char *open_it(struct session *s)
{
    memset(s->state, 0x5A, sizeof s->state);
    memset(s->events, 0xA5, sizeof s->events);
    return tell(s, guard_open(s->file.bytes, s->file.length, s->state, sizeof s->state,
                              s->events, sizeof s->events));
}

static const char *offer(struct session *s, uint8_t action)
{
    memset(s->events, 0xA5, sizeof s->events);
    return tell(s, guard_offer(s->file.bytes, s->file.length, s->state, sizeof s->state,
                               s->events, sizeof s->events, action));
}

static const char *close_it(struct session *s)
{
    memset(s->events, 0xA5, sizeof s->events);
    return tell(s, guard_close(s->file.bytes, s->file.length, s->state, sizeof s->state,
                               s->events, sizeof s->events));
}

#define SAYS(call, text) EXPECT(strcmp((call), (text)) == 0)

static guard_sets check(const struct file *f)
{
    return guard_check(f->bytes, f->length);
}

static const char *checked(const struct file *f)
{
    const guard_sets sets = check(f);

    EXPECT(sets.refusal == 0 || (sets.regulated.bits == 0 && sets.effect.bits == 0));
    return named(sets.refusal, sets.place);
}

static struct session s;

static void p1_to_p5(void)
{
    one(&s.file, 'L');
    EXPECT(s.file.length == 82);
    EXPECT(check(&s.file).refusal == 0);
    EXPECT(check(&s.file).regulated.bits == BIT(2) && check(&s.file).effect.bits == 0);

    SAYS(open_it(&s), "=1");
    SAYS(offer(&s, 1), "a1 =1");
    SAYS(offer(&s, 2), "a2 =1");
    SAYS(offer(&s, 2), "a2 =1");
    SAYS(offer(&s, 1), "a1 =1");
    SAYS(offer(&s, 2), "a2 =1"); /* 02, Req 01: "the fourth 2 halts" */
    SAYS(offer(&s, 2), "=5");
    SAYS(offer(&s, 2), "refused 14");
    SAYS(offer(&s, 64), "refused 13");
    SAYS(close_it(&s), "=5");

    one(&s.file, 'V');
    SAYS(open_it(&s), "=1");
    SAYS(offer(&s, 4), "s4 i3 =1");
    SAYS(close_it(&s), "i3 =2");
    SAYS(close_it(&s), "=2");
    SAYS(offer(&s, 4), "a4 =2");

    two(&s.file, 4, 'V', 'W');
    SAYS(checked(&s.file), "9 at 0");
    two(&s.file, 4, 'W', 'W');
    SAYS(checked(&s.file), "9 at 0");
    two(&s.file, 4, 'L', 'L');
    SAYS(checked(&s.file), "0");
}

static void p6_to_p11(void)
{
    two(&s.file, 5, 'V', 'W');
    SAYS(open_it(&s), "=1");
    SAYS(offer(&s, 4), "s4 =1");

    two(&s.file, 5, 'W', 'V');
    SAYS(open_it(&s), "=1");
    SAYS(offer(&s, 4), "s4 i3 =1");

    two(&s.file, 6, 'L', 'U');
    SAYS(open_it(&s), "=1");
    SAYS(offer(&s, 2), "a2 =1");
    SAYS(offer(&s, 2), "a2 =1");
    SAYS(offer(&s, 2), "a2 =1");
    SAYS(offer(&s, 2), "=5");

    two(&s.file, 6, 'L', 'T');
    SAYS(open_it(&s), "=4");
    SAYS(offer(&s, 2), "a2 =4");
    SAYS(offer(&s, 2), "a2 =4");
    SAYS(offer(&s, 2), "a2 =4");

    one(&s.file, 'U');
    EXPECT(s.file.length == 22);
    SAYS(open_it(&s), "=5");
    for (unsigned a = 0; a <= 63; a++) {
        SAYS(offer(&s, (uint8_t)a), "refused 14");
    }

    two(&s.file, 4, 'V', 'v');
    SAYS(open_it(&s), "=1");
    SAYS(close_it(&s), "i3 i6 =2");
}

/* guardrun over a text in memory. */
static const char *STATUS[] = {"", "running", "ended", "left", "right", "halted"};
static const char *EVENT[] = {"", "acc", "sup", "ins"};

static char *say_events(char *at, const struct session *run, unsigned events)
{
    for (unsigned i = 0; i < events; i++) {
        at += sprintf(at, "%s %u\n", EVENT[run->events[2 * i]], run->events[2 * i + 1]);
    }
    return at;
}

static void guardrun(struct session *run, const uint8_t *actions, size_t count, char *out)
{
    const struct file *f = &run->file;
    guard_answer answer = guard_open(f->bytes, f->length, run->state, sizeof run->state,
                                     run->events, sizeof run->events);

    if (answer.refusal != 0) {
        sprintf(out, "refused %s\n", named(answer.refusal, answer.place));
        return;
    }
    out += sprintf(out, "open %s\n", STATUS[answer.status]);
    out = say_events(out, run, answer.events);
    for (size_t i = 0; i < count && answer.status != GUARD_HALTED; i++) {
        answer = guard_offer(f->bytes, f->length, run->state, sizeof run->state, run->events,
                             sizeof run->events, actions[i]);
        if (answer.refusal != 0) {
            out += sprintf(out, "refused %s\n", named(answer.refusal, answer.place));
        }
        out = say_events(out, run, answer.events);
    }
    answer = guard_close(f->bytes, f->length, run->state, sizeof run->state, run->events,
                         sizeof run->events);
    out = say_events(out, run, answer.events);
    sprintf(out, "close %s\n", STATUS[answer.status]);
}

static void guardrun_example(void)
{
    const uint8_t actions[] = {4, 3};
    const uint8_t more[] = {2, 200, 2, 2, 2};
    char out[4096];

    two(&s.file, 5, 'V', 'W');
    guardrun(&s, actions, 2, out);
    EXPECT(strcmp(out, "open running\nsup 4\nsup 3\nclose ended\n") == 0);
    one(&s.file, 'L');
    guardrun(&s, more, 5, out);
    EXPECT(strcmp(out, "open running\nacc 2\nrefused 13\nacc 2\nacc 2\nclose halted\n") == 0);
    two(&s.file, 4, 'V', 'W');
    guardrun(&s, actions, 2, out);
    EXPECT(strcmp(out, "refused 9 at 0\n") == 0);
}

/* Sides 15 and 15 give 255, passed; 15 and 16 give 271, refused. */
static void spread(unsigned right, const char *says)
{
    start(&s.file, 3);
    node(&s.file, 0, 5, 1, 2, 0, 0, 0);
    node(&s.file, 1, 1, 0, 0, 18, 0, BIT(0));
    node(&s.file, 2, 1, 0, 0, right + 3, 0, BIT(1));
    step(&s.file, 1, 0, 1, 17, 0);
    for (unsigned i = 1; i <= 15; i++) {
        step(&s.file, 4, 1, i + 1, 0, 0);
    }
    step(&s.file, 2, 0, 0, 0, 0);
    step(&s.file, 7, 0, 0, 0, 0);
    step(&s.file, 1, 0, 1, right + 2, 0);
    for (unsigned i = 1; i <= right; i++) {
        step(&s.file, 4, 9, i + 1, 0, 0);
    }
    step(&s.file, 2, 0, 0, 0, 0);
    step(&s.file, 7, 0, 0, 0, 0);
    finish(&s.file);
    SAYS(checked(&s.file), says);
}

/* A right side that accepts only the first of 3 and 6: order decides. Left in
 * kind 7 stops as soon as the right has ended by its insert. */
static void feeding(void)
{
    start(&s.file, 3);
    node(&s.file, 0, 7, 1, 2, 0, 0, 0);
    node(&s.file, 1, 1, 0, 0, 5, 0, BIT(0));
    node(&s.file, 2, 1, 0, 0, 5, 0, BIT(3) | BIT(6));
    step(&s.file, 1, 0, 1, 4, 0);
    step(&s.file, 4, 3, 2, 0, 0);
    step(&s.file, 4, 6, 3, 0, 0);
    step(&s.file, 3, 0, 0, 0, 0);
    step(&s.file, 7, 0, 0, 0, 0);
    step(&s.file, 1, 0, 1, 4, 0);
    step(&s.file, 2, 0, 2, 0, 0);
    step(&s.file, 4, 9, 3, 0, 0);
    step(&s.file, 7, 0, 0, 0, 0);
    step(&s.file, 7, 0, 0, 0, 0);
    finish(&s.file);
    SAYS(open_it(&s), "=1");
    SAYS(offer(&s, 0), "i3 i9 a0 =4"); /* ended by the insert: accepts 0, 6 is never made */
    EXPECT(record(&s, 1)[0] == 6 && record(&s, 2)[0] == 6);

    s.file.bytes[6] = 5; /* in kind 5 the left goes on and its sup stands */
    SAYS(open_it(&s), "=1");
    SAYS(offer(&s, 0), "i3 i9 i6 s0 =1");
    SAYS(close_it(&s), "=2");
}

/* Where the right halts on an insert: kind 5 emits nothing, kind 7 the insert. */
static void halting(void)
{
    start(&s.file, 3);
    node(&s.file, 0, 5, 1, 2, 0, 0, 0);
    node(&s.file, 1, 1, 0, 0, 5, 0, BIT(0));
    node(&s.file, 2, 1, 0, 0, 3, 0, BIT(3));
    step(&s.file, 1, 0, 1, 4, 0);
    step(&s.file, 4, 3, 2, 0, 0);
    step(&s.file, 4, 3, 3, 0, 0);
    step(&s.file, 2, 0, 0, 0, 0);
    step(&s.file, 7, 0, 0, 0, 0);
    step(&s.file, 1, 0, 1, 2, 0);
    step(&s.file, 8, 0, 0, 0, 0);
    step(&s.file, 7, 0, 0, 0, 0);
    finish(&s.file);
    SAYS(open_it(&s), "=1");
    SAYS(offer(&s, 0), "=5");
    s.file.bytes[6] = 7;
    SAYS(open_it(&s), "=1");
    SAYS(offer(&s, 0), "i3 i3 a0 =1");
    EXPECT(record(&s, 1)[0] == 1 && record(&s, 2)[0] == 5);
    SAYS(close_it(&s), "=3");
}

/* A call of the writer on a file's records, with an output of so many bytes. */
static uint8_t out[70000];

static guard_written write_records(const uint8_t *nodes, size_t nodes_length,
                                   const uint8_t *steps, size_t steps_length, size_t room)
{
    memset(out, 0xA5, sizeof out);
    return guard_write(nodes, nodes_length, steps, steps_length, out, room);
}

static guard_written write_it(const struct file *f, size_t room)
{
    const size_t steps_at = 6 + 16u * f->bytes[3];

    return write_records(f->bytes + 6, steps_at - 6, f->bytes + steps_at,
                         f->length - steps_at, room);
}

static int unwritten_from(size_t from)
{
    while (from < sizeof out && out[from] == 0xA5) {
        from++;
    }
    return from == sizeof out;
}

/* "every file that the check passes is written again byte for byte from its own
 * records"; "Output bytes after the file stay"; a byte too short is refused. */
static void writes_again(const struct file *f)
{
    static const size_t MORE[] = {0, 1, 300};

    EXPECT(check(f).refusal == 0);
    for (unsigned i = 0; i < 3; i++) {
        const guard_written written = write_it(f, f->length + MORE[i]);
        EXPECT(written.refusal == 0 && !written.place.given && written.length == f->length);
        EXPECT(memcmp(out, f->bytes, f->length) == 0);
        EXPECT(unwritten_from(f->length));
    }
    for (size_t room = 0; room < f->length; room++) {
        const guard_written written = write_it(f, room);
        EXPECT(written.refusal == 15 && !written.place.given && written.length == 0);
        EXPECT(unwritten_from(0));
    }
}

#define REFUSED(call, says)                                                 \
    do {                                                                    \
        const guard_written written = (call);                               \
        SAYS(named(written.refusal, written.place), (says));                \
        EXPECT(written.length == 0 && unwritten_from(0));                   \
    } while (0)

/* The file in s is refused by every entry at the same place: by the check, by
 * opening, offering and closing whatever their buffers are, by the writer whatever
 * its output is. */
static void refuses(const char *says)
{
    struct file *f = &s.file;
    char line[40];

    finish(f);
    sprintf(line, "refused %s", says);
    SAYS(checked(f), says);
    SAYS(open_it(&s), line);
    SAYS(offer(&s, 200), line);
    SAYS(close_it(&s), line);
    SAYS(tell(&s, guard_open(f->bytes, f->length, NULL, 0, NULL, 0)), line);
    REFUSED(write_it(f, sizeof out), says);
    REFUSED(write_it(f, f->length), says);
    REFUSED(write_it(f, f->length - 1), says);
    REFUSED(write_it(f, 0), says);
}

static void writes_small_policies(void)
{
    static const char WHICH[] = "LVvWTU";
    struct file *f = &s.file;

    for (unsigned i = 0; WHICH[i] != '\0'; i++) {
        one(f, WHICH[i]);
        writes_again(f);
        two(f, 5, WHICH[i], 'W');
        writes_again(f);
        two(f, 7, 'L', WHICH[i]);
        writes_again(f);
    }
}

static void with_acase(struct file *f, uint64_t operand)
{
    start(f, 1);
    node(f, 0, 1, 0, 0, 5, 0, BIT(0) | BIT(1));
    step(f, 1, 0, 1, 4, 0);
    step(f, 5, 0, 2, 3, operand);
    step(f, 2, 0, 0, 0, 0);
    step(f, 3, 0, 0, 0, 0);
    step(f, 7, 0, 0, 0, 0);
    finish(f);
}

static void refuses_rules_4_to_10(void)
{
    struct file *f = &s.file;

    with_acase(f, BIT(1));
    writes_again(f);
    f->bytes[6] = 8;
    refuses("4 at 0");
    one(f, 'L');
    f->bytes[6 + 16 + 1] = 1;
    refuses("4 at 1");
    two(f, 6, 'L', 'T');
    f->bytes[6 + 2] = 1;
    refuses("5 at 1");
    f->bytes[6 + 16] = 9; /* the lower number, in a later record */
    refuses("4 at 1");
    one(f, 'L');
    f->length -= 12;
    refuses("6 at 0");
    one(f, 'L');
    step(f, 7, 0, 0, 0, 0);
    refuses("6 at 0");
    one(f, 'W');
    f->bytes[6 + 16 + 3] = 1;
    refuses("7 at 1");
    with_acase(f, BIT(0) | BIT(1));
    refuses("8 at 1");
    two(f, 4, 'V', 'W');
    refuses("9 at 0");
    spread(16, "10 at 0");
    refuses("10 at 0");
    spread(15, "0");
    writes_again(f);
}

/* ------------------------------------------------------------------ */
/* 02, Req 03: "the lowest-numbered node or step that breaks that rule". */

/* The step with this number over the whole file. */
static uint8_t *step_of(struct file *f, unsigned number)
{
    return f->bytes + 6 + 16u * f->bytes[3] + 12u * number;
}

static uint8_t *node_of(struct file *f, unsigned k)
{
    return f->bytes + 6 + 16u * k;
}

/* "Nodes come before steps, and step i counts as n + i." L has the steps 0 to 4, W
 * 5 to 7. */
static void places_of_4(void)
{
    struct file *f = &s.file;

    two(f, 6, 'L', 'W');
    node_of(f, 2)[1] = 1;
    refuses("4 at 2");
    step_of(f, 0)[0] = 0; /* a node comes before any step */
    refuses("4 at 2");
    node_of(f, 1)[3] = 65;
    refuses("4 at 1");
    two(f, 6, 'L', 'W');
    step_of(f, 7)[11] = 1;
    refuses("4 at 10");
    step_of(f, 6)[1] = 1;
    refuses("4 at 9");
    step_of(f, 0)[1] = 1;
    refuses("4 at 3");
    two(f, 6, 'L', 'W');
    node_of(f, 0)[1] = 0; /* rule 5, in a lower record */
    step_of(f, 4)[2] = 1;
    refuses("4 at 7");
}

/* Nodes from a list of sides, 0 for a trivial node; n of them. */
static void tree(struct file *f, unsigned n, const uint8_t sides[][2])
{
    start(f, n);
    for (unsigned k = 0; k < n; k++) {
        const bool inner = sides[k][0] != 0 || sides[k][1] != 0;
        node(f, k, inner ? 4 + k % 4 : 2, sides[k][0], sides[k][1], 0, 0, 0);
    }
}

#define TREE_REFUSES(says, ...)                                             \
    do {                                                                    \
        const uint8_t sides[][2] = {__VA_ARGS__};                           \
        tree(&s.file, sizeof sides / 2, sides);                             \
        refuses(says);                                                      \
    } while (0)

/* "the lowest node that has a bad child or, 0 apart, isn't a child exactly once" */
static void places_of_5(void)
{
    /* 2 has a bad child, but 1 is named twice */
    TREE_REFUSES("5 at 1", {1, 2}, {0, 0}, {1, 3}, {0, 0});
    TREE_REFUSES("5 at 0", {1, 3}, {0, 0}, {0, 0});
    TREE_REFUSES("5 at 2", {1, 2}, {2, 3}, {0, 0}, {0, 0});
    TREE_REFUSES("5 at 3", {1, 2}, {0, 0}, {0, 0}, {0, 0}); /* named by none */
    TREE_REFUSES("5 at 3", {1, 2}, {0, 0}, {3, 3}, {0, 0}); /* named twice by one: no bad child */
    TREE_REFUSES("5 at 3", {1, 2}, {0, 0}, {3, 3}, {0, 0}, {0, 0});
    TREE_REFUSES("5 at 2", {1, 2}, {0, 0}, {3, 9}, {0, 0});
    TREE_REFUSES("5 at 2", {1, 2}, {0, 0}, {3, 4}, {0, 0});
    TREE_REFUSES("5 at 2", {1, 2}, {0, 0}, {4, 3}, {0, 0});
    TREE_REFUSES("5 at 2", {1, 2}, {0, 0}, {3, 255}, {0, 0});
    TREE_REFUSES("5 at 2", {1, 2}, {0, 0}, {0, 3}, {0, 0}); /* 0 is a bad child of any */
    TREE_REFUSES("5 at 1", {2, 3}, {1, 4}, {0, 0}, {0, 0}, {0, 0}); /* its own child */
    TREE_REFUSES("5 at 1", {2, 3}, {4, 1}, {0, 0}, {0, 0}, {0, 0});
    TREE_REFUSES("5 at 2", {2, 3}, {0, 0}, {1, 4}, {0, 0}, {0, 0}); /* 1 is named once, if badly */
    TREE_REFUSES("5 at 1", {2, 3}, {0, 0}, {4, 4}, {0, 0}, {0, 0});
    TREE_REFUSES("5 at 4", {1, 2}, {3, 4}, {5, 6}, {0, 0}, {4, 7}, {0, 0}, {0, 0}, {0, 0});
}

/* "For 6 with a wrong sum it is 0"; else the step with the bad target or set. V has
 * the steps 0 to 4, W 5 to 7. */
static void places_of_6(void)
{
    struct file *f = &s.file;

    two(f, 5, 'V', 'W');
    step_of(f, 6)[2] = 3; /* outside W */
    refuses("6 at 6");
    step_of(f, 2)[2] = 1; /* not later, and no next */
    refuses("6 at 2");
    node_of(f, 2)[3] = 4; /* and a wrong sum */
    refuses("6 at 0");
    two(f, 5, 'V', 'W');
    step_of(f, 5)[3] = 255;
    refuses("6 at 5");
    two(f, 5, 'V', 'W');
    step_of(f, 0)[2] = 3; /* breaks rule 7, in a lower step */
    step_of(f, 7)[0] = 5;
    step_of(f, 7)[11] = 1; /* an acase with the targets 0, a next, and the set {0} */
    refuses("6 at 7");
}

/* One leaf on 1 and 2, behind a trivial node and V when it is to stand later. */
static void leaf_alone(struct file *f, unsigned count, bool later)
{
    start(f, later ? 5 : 1);
    if (later) {
        node(f, 0, 5, 1, 2, 0, 0, 0);
        node(f, 1, 2, 0, 0, 0, 0, 0);
        node(f, 2, 7, 3, 4, 0, 0, 0);
        add(f, 3, 'V');
    }
    node(f, later ? 4 : 0, 1, 0, 0, count, 0, BIT(1) | BIT(2));
}

/* Each step is a kind, two targets and a set. */
static void leaf_refuses(const char *says, const char *says_later, unsigned count,
                         const uint8_t steps[][4])
{
    for (unsigned later = 0; later <= 1; later++) {
        leaf_alone(&s.file, count, later == 1);
        for (unsigned i = 0; i < count; i++) {
            step(&s.file, steps[i][0], 0, steps[i][1], steps[i][2], steps[i][3]);
        }
        refuses(later == 1 ? says_later : says);
    }
}

/* The leaf's steps; behind V, which has five, its places are greater by 5. */
#define LEAF_REFUSES(says, says_later, ...)                                 \
    do {                                                                    \
        const uint8_t steps[][4] = {__VA_ARGS__};                           \
        leaf_refuses((says), (says_later), sizeof steps / 4, steps);        \
    } while (0)

enum { NEXT = 1, OK, SUP, INS, ACASE, SPEND, END, HALT };

/* "The mode rule is broken": over all modes of all steps. */
static void places_of_7(void)
{
    /* a later step, closing, leads back to the next */
    LEAF_REFUSES("7 at 0", "7 at 5", {NEXT, 1, 2, 0}, {OK, 0, 0, 0}, {SPEND, 0, 3, 0}, {END});
    /* an acase while closing may not stand and leads nowhere */
    LEAF_REFUSES("7 at 2", "7 at 7", {NEXT, 1, 2, 0}, {OK, 0, 0, 0}, {ACASE, 0, 0, 0});
    /* reached idle and closing, a spend leads back in both */
    LEAF_REFUSES("7 at 0", "7 at 5", {NEXT, 1, 2, 0}, {OK, 2, 0, 0}, {SPEND, 0, 3, 0}, {END});
    /* reached pending and closing, an acase leads back in the mode in which it may stand */
    LEAF_REFUSES("7 at 0", "7 at 5", {NEXT, 1, 1, 0}, {ACASE, 0, 2, BIT(1)}, {OK, 0, 0, 0});
    /* and an ok leads on to idle; the last step is never reached */
    LEAF_REFUSES("7 at 1", "7 at 6", {NEXT, 1, 1, 0}, {OK, 2, 0, 0}, {END}, {HALT});
    /* its own take target: the next is reached pending */
    LEAF_REFUSES("7 at 0", "7 at 5", {NEXT, 0, 1, 0}, {END});
    /* a next that nothing leads to is reached idle */
    LEAF_REFUSES("7 at 4", "7 at 9", {END}, {NEXT, 2, 3, 0}, {OK, 1, 0, 0}, {END}, {HALT});
    /* and so is one that is reached pending: it leads on, here to a spend that leads back */
    LEAF_REFUSES("7 at 0", "7 at 5", {NEXT, 1, 4, 0}, {NEXT, 2, 3, 0}, {OK, 0, 0, 0},
                 {SPEND, 0, 4, 0}, {END});
    /* a next that nothing but a closing step leads to */
    LEAF_REFUSES("7 at 1", "7 at 6", {END}, {NEXT, 2, 3, 0}, {OK, 1, 0, 0}, {SPEND, 1, 4, 0},
                 {END});
    /* a step in two modes before one that is never reached, and after one */
    LEAF_REFUSES("7 at 2", "7 at 7", {NEXT, 1, 2, 0}, {OK, 2, 0, 0}, {END}, {HALT});
    LEAF_REFUSES("7 at 1", "7 at 6", {NEXT, 2, 3, 0}, {HALT}, {OK, 3, 0, 0}, {END});
    /* a step never reached leads nowhere */
    LEAF_REFUSES("7 at 3", "7 at 8", {NEXT, 1, 2, 0}, {OK, 0, 0, 0}, {END}, {SPEND, 0, 4, 0},
                 {HALT});
    /* rule 8 is broken in a lower step */
    LEAF_REFUSES("7 at 4", "7 at 9", {NEXT, 1, 3, 0}, {ACASE, 2, 2, BIT(1) | BIT(2)},
                 {OK, 0, 0, 0}, {END}, {HALT});
    /* two nexts that share their targets; the end is reached closing and idle */
    LEAF_REFUSES("7 at 4", "7 at 9", {SPEND, 1, 2, 0}, {NEXT, 3, 4, 0}, {NEXT, 3, 4, 0},
                 {OK, 4, 0, 0}, {END});
}

static void places_of_8(void)
{
    LEAF_REFUSES("8 at 1", "8 at 6", {NEXT, 1, 3, 0}, {ACASE, 2, 2, BIT(1) | BIT(2)},
                 {OK, 0, 0, 0}, {END});
    /* a second acase that the first has settled */
    LEAF_REFUSES("8 at 2", "8 at 7", {NEXT, 1, 4, 0}, {ACASE, 2, 3, BIT(1)},
                 {ACASE, 3, 3, BIT(1)}, {OK, 0, 0, 0}, {END});
    /* two of them */
    LEAF_REFUSES("8 at 2", "8 at 7", {NEXT, 1, 5, 0}, {ACASE, 2, 3, BIT(1)},
                 {ACASE, 3, 4, BIT(2)}, {ACASE, 4, 4, 0}, {OK, 0, 0, 0}, {END});
    /* a spend passes the set on to no as well */
    LEAF_REFUSES("8 at 4", "8 at 9", {NEXT, 1, 6, 0}, {SPEND, 2, 3, 0}, {OK, 0, 0, 0},
                 {ACASE, 4, 5, BIT(1)}, {ACASE, 5, 5, BIT(2)}, {OK, 0, 0, 0}, {END});
    /* joined, what a spend and an ins pass on is the whole set again */
    LEAF_REFUSES("8 at 5", "8 at 10", {NEXT, 1, 7, 0}, {ACASE, 2, 3, BIT(1)}, {SPEND, 4, 4, 0},
                 {INS, 4, 0, 0}, {ACASE, 5, 6, BIT(2)}, {ACASE, 6, 6, BIT(1)}, {OK, 0, 0, 0},
                 {END});
}

/* A leaf that inserts so many times before it accepts. */
static void add_inserts(struct file *f, unsigned k, unsigned inserts)
{
    node(f, k, 1, 0, 0, inserts + 3, 0, BIT(k));
    step(f, NEXT, 0, 1, inserts + 2, 0);
    for (unsigned i = 1; i <= inserts; i++) {
        step(f, INS, 9, i + 1, 0, 0);
    }
    step(f, OK, 0, 0, 0, 0);
    step(f, END, 0, 0, 0, 0);
}

/* "For 9 and 10 it is the node." */
static void places_of_9_and_10(void)
{
    struct file *f = &s.file;

    start(f, 5); /* L, then V and W side by side */
    node(f, 0, 5, 1, 2, 0, 0, 0);
    add(f, 1, 'L');
    node(f, 2, 6, 3, 4, 0, 0, 0);
    add(f, 3, 'V');
    add(f, 4, 'W');
    refuses("9 at 2");
    node_of(f, 2)[0] = 4;
    refuses("9 at 2");
    node_of(f, 0)[0] = 4; /* L has no part in it */
    refuses("9 at 2");

    start(f, 7); /* twice, under a sequential node */
    node(f, 0, 7, 2, 1, 0, 0, 0);
    node(f, 1, 4, 3, 4, 0, 0, 0);
    node(f, 2, 6, 5, 6, 0, 0, 0);
    add(f, 3, 'W');
    add(f, 4, 'W');
    add(f, 5, 'V');
    add(f, 6, 'W');
    refuses("9 at 1");
    node_of(f, 1)[0] = 5;
    refuses("9 at 2");
    node_of(f, 0)[0] = 6;
    refuses("9 at 0");

    start(f, 5); /* 271 at node 2, and no less at the root */
    node(f, 0, 4, 1, 2, 0, 0, 0);
    add(f, 1, 'T');
    node(f, 2, 7, 3, 4, 0, 0, 0);
    add_inserts(f, 3, 15);
    add_inserts(f, 4, 16);
    refuses("10 at 0");
}

/* "3 for a broken record too": lengths that aren't of whole records, also where
 * they are together as long as whole ones. */
static void refuses_broken_records(void)
{
    one(&s.file, 'L');
    const uint8_t *nodes = s.file.bytes + 6, *steps = nodes + 16;

    for (size_t n = 0; n <= 48; n++) {
        for (size_t m = 0; m <= 72; m++) {
            if (n % 16 != 0 || m % 12 != 0) {
                REFUSED(write_records(nodes, n, steps, m, m % 2 == 0 ? sizeof out : 0), "3");
            }
        }
    }
    REFUSED(write_records(nodes, 0, steps, 60, sizeof out), "3");
    REFUSED(write_records(NULL, 0, NULL, 0, 0), "3");
}

/* Counts at the ends of their ranges, and around; also such as are the same in
 * a byte, and a length that is the same in two. */
static void refuses_counts(void)
{
    static uint8_t nodes[16 * 4096], steps[12 * 5500];
    struct file *f = &s.file;

    start(f, 31);
    for (unsigned k = 0; k < 31; k++) {
        if (k % 2 == 0 && k < 30) {
            node(f, k, 4, k + 1, k + 2, 0, 0, 0);
        } else {
            node(f, k, 1, 0, 0, 32, 0, BIT(0));
            step(f, 1, 0, 1, 31, 0);
            for (unsigned i = 1; i < 30; i++) {
                step(f, 6, 0, i + 1, i + 1, 0);
            }
            step(f, 2, 0, 0, 0, 0);
            step(f, 7, 0, 0, 0, 0);
        }
    }
    finish(f);
    EXPECT(f->length == 6646);
    writes_again(f);
    f->bytes[6645] = 1; /* the last byte of the last step: the greatest place */
    refuses("4 at 542");

    one(f, 'T');
    memcpy(nodes, f->bytes + 6, 16);
    EXPECT(write_records(nodes, 16, NULL, 0, sizeof out).refusal == 0);
    REFUSED(guard_write(nodes, 16, NULL, 0, memset(out, 0xA5, sizeof out), 21), "15");
    EXPECT(guard_write(nodes, 16, NULL, 0, NULL, 0).refusal == 15);
    REFUSED(write_records(nodes, 16 * 31, NULL, 0, sizeof out), "4 at 1");
    REFUSED(write_records(nodes, 16 * 32, NULL, 0, sizeof out), "3");
    REFUSED(write_records(nodes, 16 * 33, NULL, 0, sizeof out), "3");
    REFUSED(write_records(nodes, 16 * 257, NULL, 0, sizeof out), "3");
    one(f, 'L');
    memcpy(nodes, f->bytes + 6, 16);
    for (unsigned i = 0; i < 5500; i++) {
        memcpy(steps + 12 * i, f->bytes + 22 + (i < 5 ? 12 * i : 48), 12);
    }
    EXPECT(write_records(nodes, 16, steps, 12 * 5, sizeof out).refusal == 0);
    REFUSED(write_records(nodes, 16, steps, 12 * 512, sizeof out), "6 at 0");
    REFUSED(write_records(nodes, 16, steps, 12 * 513, sizeof out), "3");
    REFUSED(write_records(nodes, 16, steps, 12 * 517, 82), "3");
    REFUSED(write_records(nodes, 16 * 1025, steps, 12 * 4101, 82), "3"); /* 65,536 bytes more */
}

/* ------------------------------------------------------------------ */
/* 02, Req 04: "Keep the count of running leaves in the state itself". tell holds it
 * against the records after every answered call. */

/* What the panel reads. */
static unsigned panel(void)
{
    return guard_running_leaves(s.state, sizeof s.state).leaves;
}

static void counts_one_leaf(void)
{
    one(&s.file, 'L');
    SAYS(open_it(&s), "=1");
    EXPECT(panel() == 1);
    for (unsigned i = 0; i < 3; i++) {
        SAYS(offer(&s, 2), "a2 =1");
        EXPECT(panel() == 1);
    }
    SAYS(offer(&s, 2), "=5"); /* it halts */
    EXPECT(panel() == 0);
    SAYS(close_it(&s), "=5");
    EXPECT(panel() == 0);

    one(&s.file, 'V');
    SAYS(open_it(&s), "=1");
    SAYS(offer(&s, 9), "a9 =1"); /* not regulated */
    EXPECT(panel() == 1);
    SAYS(close_it(&s), "i3 =2"); /* it ends */
    EXPECT(panel() == 0);
    SAYS(offer(&s, 4), "a4 =2");
    EXPECT(panel() == 0);

    one(&s.file, 'T'); /* neither of these is a leaf */
    SAYS(open_it(&s), "=2");
    EXPECT(panel() == 0);
    one(&s.file, 'U');
    SAYS(open_it(&s), "=5");
    EXPECT(panel() == 0);
}

static void counts_two_sides(void)
{
    two(&s.file, 4, 'V', 'v');
    SAYS(open_it(&s), "=1");
    EXPECT(panel() == 2);
    SAYS(close_it(&s), "i3 i6 =2"); /* both dropped */
    EXPECT(panel() == 0);
    two(&s.file, 4, 'T', 'L'); /* a trivial side doesn't count */
    SAYS(open_it(&s), "=1");
    EXPECT(panel() == 1);
    two(&s.file, 6, 'L', 'U'); /* nor does an unsatisfiable one */
    SAYS(open_it(&s), "=1");
    EXPECT(panel() == 1);
    two(&s.file, 6, 'L', 'T'); /* dropped in opening */
    SAYS(open_it(&s), "=4");
    EXPECT(panel() == 0 && record(&s, 1)[0] == GUARD_DROPPED);
    two(&s.file, 5, 'U', 'L'); /* opened, and then dropped */
    SAYS(open_it(&s), "=5");
    EXPECT(panel() == 0 && record(&s, 2)[0] == GUARD_DROPPED);
    two(&s.file, 7, 'L', 'T'); /* dropped and never opened */
    SAYS(open_it(&s), "=4");
    EXPECT(panel() == 0 && record(&s, 1)[0] == GUARD_DROPPED);
}

/* L beside a node of V and a leaf that ends or halts on 1: where that decides the
 * node, V is dropped. */
static void counts_inner_nodes(unsigned kind, unsigned last, const char *says, unsigned running)
{
    struct file *f = &s.file;

    start(f, 5);
    node(f, 0, 4, 1, 2, 0, 0, 0);
    add(f, 1, 'L');
    node(f, 2, kind, 3, 4, 0, 0, 0);
    add(f, 3, 'V');
    node(f, 4, 1, 0, 0, 3, 0, BIT(1));
    step(f, 1, 0, 1, 2, 0);
    step(f, last, 0, 0, 0, 0);
    step(f, 7, 0, 0, 0, 0);
    finish(f);
    SAYS(open_it(&s), "=1");
    EXPECT(panel() == 3);
    SAYS(offer(&s, 4), "s4 i3 =1");
    EXPECT(panel() == 3);
    SAYS(offer(&s, 1), says);
    EXPECT(panel() == running);
}

/* "nodes n, 1 to 31": no more than 16 leaves, here all of them L. */
static void counts_sixteen(void)
{
    struct file *f = &s.file;

    start(f, 31);
    for (unsigned k = 0; k < 31; k++) {
        if (k % 2 == 0 && k < 30) {
            node(f, k, 6, k + 1, k + 2, 0, 0, 0);
        } else {
            add(f, k, 'L');
        }
    }
    finish(f);
    SAYS(open_it(&s), "=1");
    EXPECT(panel() == 16);
    for (unsigned i = 0; i < 3; i++) {
        SAYS(offer(&s, 2), "a2 =1");
        EXPECT(panel() == 16);
    }
    put(record(&s, 1) + 4, 1, 4); /* two leaves with a reheat left */
    put(record(&s, 30) + 4, 1, 4);
    SAYS(offer(&s, 2), "a2 =1");
    EXPECT(panel() == 2);
    SAYS(offer(&s, 2), "=5");
    EXPECT(panel() == 0);
}

/* The state in s is refused by every call that reads it, before the numbers above
 * 12, and it stays. */
static void misfits(void)
{
    uint8_t kept[GUARD_STATE_BYTES];

    memcpy(kept, s.state, sizeof kept);
    SAYS(offer(&s, 2), "refused 12");
    SAYS(offer(&s, 9), "refused 12");
    SAYS(offer(&s, 64), "refused 12");
    SAYS(close_it(&s), "refused 12");
    EXPECT(memcmp(kept, s.state, sizeof kept) == 0);
    SAYS(tell(&s, guard_close(s.file.bytes, s.file.length, s.state, sizeof s.state, s.events,
                              sizeof s.events - 1)), "refused 11");
}

/* "refusal 12 covers a wrong count"; of the front every other byte is zero. The state
 * in s fits. */
static void misfits_but_for_one(unsigned right)
{
    EXPECT(s.state[7] == right);
    for (unsigned count = 0; count <= 255; count++) {
        s.state[7] = (uint8_t)count;
        if (count != right) {
            misfits();
        }
    }
    s.state[7] = (uint8_t)right;
    for (unsigned i = 0; i < 7; i++) {
        for (unsigned byte = 1; byte <= 255; byte++) {
            s.state[i] = (uint8_t)byte;
            misfits();
        }
        s.state[i] = (uint8_t)right; /* the count at another place too */
        s.state[7] = 0;
        if (right != 0) {
            misfits();
        }
        s.state[i] = 0;
        s.state[7] = (uint8_t)right;
    }
}

static void refuses_counts_in_states(void)
{
    start(&s.file, 5); /* one of its three nodes without sides runs */
    node(&s.file, 0, 4, 1, 2, 0, 0, 0);
    add(&s.file, 1, 'T');
    node(&s.file, 2, 6, 3, 4, 0, 0, 0);
    add(&s.file, 3, 'L');
    add(&s.file, 4, 'U');
    finish(&s.file);
    SAYS(open_it(&s), "=1");
    misfits_but_for_one(1);
    SAYS(offer(&s, 2), "a2 =1");
    two(&s.file, 4, 'V', 'v');
    SAYS(open_it(&s), "=1");
    misfits_but_for_one(2);
    SAYS(close_it(&s), "i3 i6 =2");
    misfits_but_for_one(0); /* closing a decided root reads the state too */
    SAYS(offer(&s, 4), "a4 =2");
    one(&s.file, 'U');
    SAYS(open_it(&s), "=5");
    misfits_but_for_one(0);
    SAYS(offer(&s, 2), "refused 14");
    two(&s.file, 4, 'L', 'L'); /* a right count of records that don't fit */
    SAYS(open_it(&s), "=1");
    put(record(&s, 1), UINT64_C(6) << 56, 8);
    s.state[7] = 1;
    misfits();
    for (unsigned i = 8 * (1 + 3); i < 256; i++) { /* records from n on */
        SAYS(open_it(&s), "=1");
        s.state[i] = 1;
        misfits();
    }
    one(&s.file, 'T');
    SAYS(open_it(&s), "=2");
    record(&s, 0)[0] = GUARD_DROPPED;
    misfits();
}

/* "Refusal 11 now means 256 bytes": the state's first bytes, as many as there are. */
static void refuses_lengths(void)
{
    static uint8_t state[300], kept[300];
    const struct file *f = &s.file;

    two(&s.file, 4, 'V', 'v');
    SAYS(open_it(&s), "=1");
    memset(state, 0, sizeof state);
    for (unsigned old = 0; old <= 1; old++) { /* as it is, and without its front */
        memcpy(state, s.state + 8 * old, sizeof s.state - 8 * old);
        memcpy(kept, state, sizeof kept);
        for (size_t length = 0; length <= sizeof state; length++) {
            const guard_count count = guard_running_leaves(state, length);
            if (length == 256) {
                EXPECT(count.refusal == 0 && count.leaves == state[7]);
                continue;
            }
            EXPECT(count.refusal == 11 && count.leaves == 0);
            SAYS(tell(&s, guard_open(f->bytes, f->length, state, length, s.events,
                                     sizeof s.events)), "refused 11");
            SAYS(tell(&s, guard_offer(f->bytes, f->length, state, length, s.events,
                                      sizeof s.events, 4)), "refused 11");
            SAYS(tell(&s, guard_close(f->bytes, f->length, state, length, s.events,
                                      sizeof s.events)), "refused 11");
            EXPECT(memcmp(state, kept, sizeof kept) == 0);
        }
    }
    EXPECT(guard_running_leaves(NULL, 0).refusal == 11);
    SAYS(tell(&s, guard_offer(f->bytes, f->length, state, 256, s.events, sizeof s.events, 4)),
         "refused 12"); /* an old state in 256 bytes */
}

/* ------------------------------------------------------------------ */
/* 02, Req 05: "Run opening, the trace's actions and closing". The numbers in these
 * cases are written by hand from 01 and 02.                            */

/* What is lent to a run, and how it came out as text. */
static struct {
    uint8_t state[300];
    uint8_t events[6000];
    guard_tally tally;
    char text[32768];
} r;

/* The state may hold anything: it isn't read. */
static void lend_buffers(uint8_t state)
{
    memset(r.state, state, sizeof r.state);
    memset(r.events, 0xA5, sizeof r.events);
}

static void lend_tally(uint32_t counts)
{
    for (unsigned i = 0; i < 512; i++) {
        r.tally.steps[i] = counts;
    }
    for (unsigned a = 0; a < 64; a++) {
        r.tally.accepted[a] = r.tally.suppressed[a] = r.tally.inserted[a] = counts;
    }
}

/* The run as text: events, the root's status, the actions judged and the refusal, if
 * there is one; a refused opening is the refusal alone. */
static const char *run_text(guard_traced t)
{
    char *at = r.text;

    if (!t.opened) {
        EXPECT(t.refusal != 0 && t.judged == 0 && t.events == 0 && t.status == 0);
        sprintf(at, "refused %s", named(t.refusal, t.place));
        return r.text;
    }
    EXPECT(!t.place.given && t.status == r.state[8]);
    for (uint32_t i = 0; i < t.events; i++) {
        at += sprintf(at, "%c%u ", "?asi"[r.events[2 * i]], r.events[2 * i + 1]);
    }
    for (size_t i = 2 * (size_t)t.events; i < sizeof r.events; i++) {
        EXPECT(r.events[i] == 0xA5);
    }
    at += sprintf(at, "=%u judged %u", t.status, (unsigned)t.judged);
    if (t.refusal != 0) {
        sprintf(at, " refused %u", t.refusal);
    }
    return r.text;
}

#define ACTIONS(...) (const uint8_t[]){__VA_ARGS__}, sizeof((const uint8_t[]){__VA_ARGS__})
#define NO_ACTIONS NULL, 0

/* A run of the file in s whose tally goes on from where it is. */
static const char *run_on(size_t room, const uint8_t *trace, size_t length)
{
    lend_buffers(0x5A);
    return run_text(guard_trace(s.file.bytes, s.file.length, trace, length, r.state,
                                GUARD_STATE_BYTES, r.events, room, &r.tally));
}

static const char *run(size_t room, const uint8_t *trace, size_t length)
{
    lend_tally(0);
    return run_on(room, trace, length);
}

/* The counts that aren't zero: steps by number, then actions accepted, suppressed and
 * inserted. */
static const char *tallied(void)
{
    const uint32_t *counts[] = {r.tally.accepted, r.tally.suppressed, r.tally.inserted};
    char *at = r.text;

    for (unsigned i = 0; i < 512; i++) {
        if (r.tally.steps[i] != 0) {
            at += sprintf(at, " %u:%u", i, (unsigned)r.tally.steps[i]);
        }
    }
    for (unsigned i = 0; i < 3; i++) {
        for (unsigned a = 0; a < 64; a++) {
            if (counts[i][a] != 0) {
                at += sprintf(at, " %c%u:%u", "asi"[i], a, (unsigned)counts[i][a]);
            }
        }
    }
    *at = '\0';
    return at == r.text ? at : r.text + 1; /* but for the first space */
}

/* One leaf. A next is counted when it is left: L's by every 2, and by closing. */
static void traces_one_leaf(void)
{
    one(&s.file, 'L');
    SAYS(run(600, ACTIONS(1, 2)), "a1 a2 =2 judged 2");
    SAYS(tallied(), "0:2 1:1 2:1 4:1 a1:1 a2:1");
    SAYS(run(600, NO_ACTIONS), "=2 judged 0"); /* opening and closing alone */
    SAYS(tallied(), "0:1 4:1");
    SAYS(run(512, NO_ACTIONS), "=2 judged 0");
    /* the fourth 2 halts: it is judged, and nothing after it is looked at */
    SAYS(run(600, ACTIONS(2, 2, 2, 2)), "a2 a2 a2 =5 judged 4");
    SAYS(tallied(), "0:4 1:4 2:3 3:1 a2:3");
    SAYS(run(600, ACTIONS(2, 2, 2, 2, 64, 2)), "a2 a2 a2 =5 judged 4");
    SAYS(tallied(), "0:4 1:4 2:3 3:1 a2:3");
    SAYS(run(518, ACTIONS(2, 2, 2, 2)), "a2 a2 a2 =5 judged 4"); /* 512 are left for it */
    SAYS(run(517, ACTIONS(2, 2, 2, 2)), "a2 a2 a2 =1 judged 3 refused 15");
    SAYS(tallied(), "0:3 1:3 2:3 a2:3");
    memset(r.events, 0xA5, sizeof r.events); /* that state fits, and isn't read either */
    SAYS(run_text(guard_trace(s.file.bytes, s.file.length, ACTIONS(2, 2, 2), r.state, 256,
                              r.events, 600, &r.tally)), "a2 a2 a2 =2 judged 3");

    one(&s.file, 'V');
    SAYS(run(600, ACTIONS(4)), "s4 i3 i3 =2 judged 1");
    SAYS(tallied(), "0:2 1:1 2:1 3:1 4:1 s4:1 i3:2");
    SAYS(run_on(600, ACTIONS(4, 9)), "s4 i3 a9 i3 =2 judged 2"); /* not cleared */
    SAYS(tallied(), "0:4 1:2 2:2 3:2 4:2 a9:1 s4:2 i3:4");

    with_acase(&s.file, BIT(1));
    SAYS(run(600, ACTIONS(0, 1, 1)), "s0 a1 a1 =2 judged 3");
    SAYS(tallied(), "0:4 1:3 2:2 3:1 4:1 a1:2 s0:1");
}

/* A leaf whose opening inserts 7 and goes on to a next, or halts. */
static void starts_with_7(struct file *f, bool halts)
{
    start(f, 1);
    node(f, 0, 1, 0, 0, halts ? 2 : 4, 0, BIT(1));
    step(f, INS, 7, 1, 0, 0);
    if (halts) {
        step(f, HALT, 0, 0, 0, 0);
    } else {
        step(f, NEXT, 0, 2, 3, 0);
        step(f, OK, 0, 1, 0, 0);
        step(f, END, 0, 0, 0, 0);
    }
    finish(f);
}

/* "when the root halts", also in opening: no closing and no refusal. A root that has
 * ended goes on. */
static void traces_decided_roots(void)
{
    one(&s.file, 'U');
    SAYS(run(512, NO_ACTIONS), "=5 judged 0");
    SAYS(run(512, ACTIONS(1, 2)), "=5 judged 0");
    SAYS(run(512, ACTIONS(64)), "=5 judged 0");
    SAYS(tallied(), "");
    SAYS(run(511, ACTIONS(64)), "refused 15");
    starts_with_7(&s.file, true);
    SAYS(run(512, ACTIONS(1)), "i7 =5 judged 0"); /* 510 are left, and no call comes */
    SAYS(tallied(), "0:1 1:1 i7:1");
    starts_with_7(&s.file, false);
    SAYS(run(514, NO_ACTIONS), "i7 =2 judged 0");
    SAYS(tallied(), "0:1 1:1 3:1 i7:1");
    SAYS(run(513, NO_ACTIONS), "i7 =1 judged 0 refused 15");
    SAYS(tallied(), "0:1 i7:1");
    SAYS(run(513, ACTIONS(1)), "i7 =1 judged 0 refused 15");
    SAYS(run(513, ACTIONS(64)), "i7 =1 judged 0 refused 13");

    one(&s.file, 'T');
    SAYS(run(600, ACTIONS(5, 63)), "a5 a63 =2 judged 2");
    SAYS(tallied(), "a5:1 a63:1");
    SAYS(run(516, ACTIONS(5, 63)), "a5 a63 =2 judged 2");
    SAYS(run(515, ACTIONS(5, 63)), "a5 a63 =2 judged 2 refused 15"); /* closing emits nothing */
    SAYS(run(514, ACTIONS(5, 63)), "a5 a63 =2 judged 2 refused 15");
    SAYS(run(513, ACTIONS(5, 63)), "a5 =2 judged 1 refused 15");
    SAYS(run(512, ACTIONS(5, 64)), "a5 =2 judged 1 refused 13");
    two(&s.file, 6, 'L', 'T'); /* P9 */
    SAYS(run(600, ACTIONS(2, 2, 2, 2)), "a2 a2 a2 a2 =4 judged 4");
    SAYS(tallied(), "a2:4");
}

/* Refusals of opening, an action and closing, and their order: 15 is "tried last". */
static void traces_refused(void)
{
    one(&s.file, 'V');
    SAYS(run(516, ACTIONS(4)), "s4 i3 i3 =2 judged 1");
    SAYS(run(515, ACTIONS(4)), "s4 i3 =1 judged 1 refused 15"); /* at closing */
    SAYS(tallied(), "0:1 1:1 2:1 s4:1 i3:1");
    EXPECT(r.state[7] == 1 && r.state[8] == 1 && r.state[9] == 0); /* the leaf waits at 0 */
    SAYS(run(515, ACTIONS(4, 4)), "s4 i3 =1 judged 1 refused 15"); /* at an action */
    SAYS(run(512, ACTIONS(4, 64)), "s4 i3 =1 judged 1 refused 13"); /* 508 are left */
    SAYS(run(600, ACTIONS(64)), "=1 judged 0 refused 13"); /* "stops at the first refusal" */
    SAYS(run(600, ACTIONS(255, 4)), "=1 judged 0 refused 13");
    SAYS(tallied(), "");
    SAYS(run(520, ACTIONS(4, 63, 200, 4)), "s4 i3 a63 =1 judged 2 refused 13");
    SAYS(run(511, ACTIONS(64)), "refused 15");
    SAYS(run(0, NO_ACTIONS), "refused 15");
}

/* A refused opening writes nothing; the state's length is refused before 15, the policy
 * before both. */
static void traces_unopened(void)
{
    static const size_t STATES[] = {0, 8, 248, 255, 257, 300}, ROOMS[] = {0, 511, 512, 600};

    for (unsigned i = 0; i < 6 * 4; i++) {
        const guard_tally none = {0};
        for (unsigned bad = 0; bad <= 1; bad++) {
            two(&s.file, 4, 'V', bad == 1 ? 'W' : 'v');
            lend_buffers(0x5A);
            lend_tally(0);
            SAYS(run_text(guard_trace(s.file.bytes, s.file.length, ACTIONS(4, 64), r.state,
                                      STATES[i % 6], r.events, ROOMS[i / 6], &r.tally)),
                 bad == 1 ? "refused 9 at 0" : "refused 11");
            EXPECT(memcmp(&r.tally, &none, sizeof none) == 0);
            for (unsigned b = 0; b < sizeof r.state; b++) {
                EXPECT(r.state[b] == 0x5A && r.events[b] == 0xA5);
            }
        }
    }
    SAYS(run_text(guard_trace(NULL, 0, NULL, 0, NULL, 0, NULL, 0, &r.tally)), "refused 1");
    one(&s.file, 'V');
    SAYS(run_text(guard_trace(s.file.bytes, s.file.length, NULL, 0, NULL, 0, NULL, 0, &r.tally)),
         "refused 11");
    SAYS(run_text(guard_trace(s.file.bytes, s.file.length, NULL, 0, r.state, 256, NULL, 0,
                              &r.tally)), "refused 15");
}

/* "counts stop at 4,294,967,295" */
static void counts_stop(void)
{
    one(&s.file, 'L');
    lend_tally(UINT32_MAX - 1);
    SAYS(run_on(600, ACTIONS(2, 2, 2, 2)), "a2 a2 a2 =5 judged 4");
    for (unsigned i = 0; i < 512; i++) { /* four times, four times, three times, once */
        EXPECT(r.tally.steps[i] == (i <= 3 ? UINT32_MAX : UINT32_MAX - 1));
    }
    for (unsigned a = 0; a < 64; a++) {
        EXPECT(r.tally.accepted[a] == (a == 2 ? UINT32_MAX : UINT32_MAX - 1));
        EXPECT(r.tally.suppressed[a] == UINT32_MAX - 1 && r.tally.inserted[a] == UINT32_MAX - 1);
    }
    one(&s.file, 'V');
    lend_tally(UINT32_MAX - 3);
    SAYS(run_on(600, ACTIONS(4, 4, 4, 4)), "s4 i3 s4 i3 s4 i3 s4 i3 i3 =2 judged 4");
    EXPECT(r.tally.steps[2] == UINT32_MAX && r.tally.steps[3] == UINT32_MAX - 2);
    EXPECT(r.tally.suppressed[4] == UINT32_MAX && r.tally.inserted[3] == UINT32_MAX);
    EXPECT(r.tally.suppressed[3] == UINT32_MAX - 3 && r.tally.inserted[4] == UINT32_MAX - 3);
    SAYS(run_on(600, ACTIONS(4)), "s4 i3 i3 =2 judged 1"); /* and stay there */
    EXPECT(r.tally.steps[0] == UINT32_MAX && r.tally.steps[2] == UINT32_MAX);
    EXPECT(r.tally.steps[3] == UINT32_MAX - 1 && r.tally.inserted[3] == UINT32_MAX);
}

/* Inserts that are given on. V has the steps 0 to 4, W 5 to 7. */
static void traces_two_leaves(void)
{
    /* W suppresses 3 when V inserts it, after the 4 and in closing: no events. Its own
     * 3 is one; its next is left four times. */
    two(&s.file, 5, 'V', 'W');
    SAYS(run(600, ACTIONS(4, 3)), "s4 s3 =2 judged 2");
    SAYS(tallied(), "0:2 1:1 2:1 3:1 4:1 5:4 6:3 7:1 s3:1 s4:1");
    two(&s.file, 5, 'W', 'V');
    SAYS(run(600, ACTIONS(4)), "s4 i3 i3 =2 judged 1");
    SAYS(tallied(), "0:1 2:1 3:2 4:1 5:1 6:1 7:1 s4:1 i3:2");
    two(&s.file, 4, 'V', 'v');
    SAYS(run(600, ACTIONS(5)), "s5 i6 i3 i6 =2 judged 1");
    SAYS(tallied(), "0:1 3:1 4:1 5:2 6:1 7:1 8:1 9:1 s5:1 i3:1 i6:2");
}

/* Left: 0 next 1/4, 1 ins 3, 2 ins 6, 3 sup, 4 end. Right, on 3 and 6: 5 next, 6 ok,
 * 7 ins 9, 8 end, and 9 end for its done target. */
static void traces_deciding_inserts(void)
{
    feeding();
    s.file.bytes[6] = 7; /* the insert of 3 ends the root: 2 and 3 never run */
    SAYS(run(600, ACTIONS(0)), "i3 i9 a0 =4 judged 1");
    SAYS(tallied(), "0:1 1:1 5:1 6:1 7:1 8:1 a0:1 i3:1 i9:1");
    SAYS(run(600, ACTIONS(0, 0, 3)), "i3 i9 a0 a0 a3 =4 judged 3");
    SAYS(tallied(), "0:1 1:1 5:1 6:1 7:1 8:1 a0:2 a3:1 i3:1 i9:1");
    s.file.bytes[6] = 5; /* the left goes on, and 6 goes straight out */
    SAYS(run(600, ACTIONS(0)), "i3 i9 i6 s0 =2 judged 1");
    SAYS(tallied(), "0:2 1:1 2:1 3:1 4:1 5:1 6:1 7:1 8:1 s0:1 i3:1 i6:1 i9:1");

    halting(); /* left: 0 next 1/4, 1 ins 3, 2 ins 3, 3 ok, 4 end; right: 5 next, 6 halt, 7 end */
    s.file.bytes[6] = 5;
    SAYS(run(600, ACTIONS(0, 0)), "=5 judged 1");
    SAYS(tallied(), "0:1 1:1 5:1 6:1");
    s.file.bytes[6] = 7;
    SAYS(run(600, ACTIONS(0)), "i3 i3 a0 =3 judged 1");
    SAYS(tallied(), "0:2 1:1 2:1 3:1 4:1 5:1 6:1 a0:1 i3:2");
}

/* 31 nodes and 512 steps: sixteen leaves on 0 with next, 29 spends, ok and end. */
static void traces_every_step(void)
{
    struct file *f = &s.file;

    start(f, 31);
    for (unsigned k = 0; k < 31; k++) {
        if (k % 2 == 0 && k < 30) {
            node(f, k, 4, k + 1, k + 2, 0, 0, 0);
            continue;
        }
        node(f, k, 1, 0, 0, 32, 0, BIT(0));
        step(f, NEXT, 0, 1, 31, 0);
        for (unsigned i = 1; i < 30; i++) {
            step(f, SPEND, 0, i + 1, i + 1, 0);
        }
        step(f, OK, 0, 0, 0, 0);
        step(f, END, 0, 0, 0, 0);
    }
    finish(f);
    SAYS(run(600, ACTIONS(0, 0, 0)), "a0 a0 a0 =2 judged 3");
    for (unsigned i = 0; i < 512; i++) {
        EXPECT(r.tally.steps[i] == (i % 32 == 0 ? 4 : i % 32 == 31 ? 1 : 3));
    }
    EXPECT(r.tally.accepted[0] == 3);
}

/* More actions and events than two bytes count. */
static void traces_at_length(void)
{
    enum { MANY = 70000 };
    static uint8_t trace[MANY], events[2 * MANY + GUARD_EVENT_BYTES];
    guard_traced t;

    one(&s.file, 'T');
    memset(trace, 5, sizeof trace);
    for (size_t less = 0; less <= 3; less++) { /* 1 and 2 are short of closing's need */
        lend_tally(0);
        t = guard_trace(s.file.bytes, s.file.length, trace, MANY, r.state, GUARD_STATE_BYTES,
                        events, sizeof events - less, &r.tally);
        EXPECT(t.refusal == (less == 0 ? 0 : 15) && t.status == 2 && t.events == t.judged);
        EXPECT(t.judged == (less < 3 ? MANY : MANY - 1) && r.tally.accepted[5] == t.judged);
    }
}

/* "The events are those that the single calls give." A run by single calls, each with
 * buffers of its own. */
struct single {
    uint8_t state[GUARD_STATE_BYTES];
    uint8_t events[sizeof r.events];
    guard_tally tally; /* of actions alone */
    guard_traced so_far;
};

/* What one more call of the file in s does; answers whether the run goes on. */
static bool go_on(struct single *e, size_t room, guard_answer answer)
{
    uint32_t *counts[] = {NULL, e->tally.accepted, e->tally.suppressed, e->tally.inserted};
    const size_t written = 2 * (size_t)e->so_far.events;

    if (answer.refusal == 0 && room - written < GUARD_EVENT_BYTES) {
        answer.refusal = 15;
    }
    e->so_far.refusal = answer.refusal;
    e->so_far.place = answer.place;
    if (answer.refusal != 0) {
        return false;
    }
    memcpy(e->state, s.state, sizeof s.state);
    memcpy(e->events + written, s.events, 2u * answer.events);
    for (unsigned i = 0; i < answer.events; i++) {
        counts[s.events[2 * i]][s.events[2 * i + 1]]++;
    }
    e->so_far.opened = true;
    e->so_far.events += answer.events;
    e->so_far.status = answer.status;
    return answer.status != GUARD_HALTED;
}

static void run_singly(struct single *e, size_t room, const uint8_t *trace, size_t length)
{
    const struct file *f = &s.file;

    memset(e, 0, sizeof *e);
    memset(e->state, (int)(room % 256), sizeof e->state);
    memset(e->events, 0xA5, sizeof e->events);
    if (!go_on(e, room, guard_open(f->bytes, f->length, s.state, sizeof s.state, s.events,
                                   sizeof s.events))) {
        return;
    }
    for (size_t i = 0; i < length; i++) {
        const bool goes_on =
            go_on(e, room, guard_offer(f->bytes, f->length, s.state, sizeof s.state, s.events,
                                       sizeof s.events, trace[i]));
        e->so_far.judged += e->so_far.refusal == 0;
        if (!goes_on) {
            return;
        }
    }
    (void)go_on(e, room, guard_close(f->bytes, f->length, s.state, sizeof s.state, s.events,
                                     sizeof s.events));
}

/* Holds a run against the single calls and answers how many events it wrote. */
static uint32_t runs_as_singly(size_t room, const uint8_t *trace, size_t length)
{
    static struct single e;

    run_singly(&e, room, trace, length);
    lend_buffers((uint8_t)room);
    lend_tally(0);
    const guard_traced t =
        guard_trace(s.file.bytes, s.file.length, trace, length, r.state, GUARD_STATE_BYTES,
                    r.events, room, &r.tally);
    EXPECT(t.refusal == e.so_far.refusal && t.opened == e.so_far.opened);
    EXPECT(t.place.given == e.so_far.place.given && t.place.number == e.so_far.place.number);
    EXPECT(t.judged == e.so_far.judged && t.events == e.so_far.events);
    EXPECT(t.status == e.so_far.status);
    EXPECT(memcmp(r.state, e.state, sizeof e.state) == 0);
    EXPECT(memcmp(r.events, e.events, sizeof e.events) == 0);
    EXPECT(memcmp(r.tally.accepted, e.tally.accepted, sizeof e.tally.accepted) == 0);
    EXPECT(memcmp(r.tally.suppressed, e.tally.suppressed, sizeof e.tally.suppressed) == 0);
    EXPECT(memcmp(r.tally.inserted, e.tally.inserted, sizeof e.tally.inserted) == 0);
    return t.events;
}

/* The same, with every room from too little to open to more than enough. */
static void runs_in_any_room(const uint8_t *trace, size_t length)
{
    const size_t enough = 2 * (size_t)runs_as_singly(sizeof r.events, trace, length) + 512;

    for (size_t room = 509; room <= enough + 1; room++) {
        (void)runs_as_singly(room, trace, length);
    }
}

/* The same actions in every order that a step of 1 to 6 gives. */
static void traces_as_singly(void)
{
    static const uint8_t ACTIONS_OF_01[] = {4, 2, 3, 5, 2, 6, 4, 64, 2, 4, 5, 3, 2};
    uint8_t trace[13];

    for (unsigned by = 1; by <= 6; by++) {
        for (unsigned i = 0; i < 13; i++) {
            trace[i] = ACTIONS_OF_01[i * by % 13];
        }
        runs_in_any_room(trace, 13);
        runs_in_any_room(trace, by);
    }
}

static void traces_small_policies(void)
{
    static const char WHICH[] = "LVvWTU";

    for (unsigned i = 0; i < 6; i++) {
        one(&s.file, WHICH[i]);
        traces_as_singly();
        for (unsigned j = 0; j < 6; j++) {
            for (unsigned kind = 4; kind <= 7; kind++) {
                two(&s.file, kind, WHICH[i], WHICH[j]); /* some are refused 9 */
                traces_as_singly();
            }
        }
    }
    spread(15, "0"); /* 241 events for a 0: 1 for each of 15 inserts, 15 more each, and a0 */
    runs_in_any_room(ACTIONS(0, 5, 0, 1, 0));
}

/* The samples' policies: every action that they regulate, over and over, by steps that
 * have no factor in common with 64. */
static void traces_named(void)
{
    const uint64_t set = check(&s.file).regulated.bits;
    uint8_t trace[40];

    for (unsigned by = 1; by <= 9; by += 2) {
        unsigned length = 0;
        for (unsigned i = 0; length < sizeof trace && i < 64 * 64; i++) {
            const unsigned action = (i * by + i / 64) % 64;
            if ((set >> action & 1) != 0 || i % 61 == 0) {
                trace[length++] = (uint8_t)action;
            }
        }
        runs_in_any_room(trace, length);
    }
}

/* A file named on the command line, as the samples' policies are. */
static void try_named(const char *name)
{
    struct file *f = &s.file;
    FILE *from = fopen(name, "rb");

    if (from == NULL) {
        printf("%s can't be read\n", name);
        exit(1);
    }
    f->length = fread(f->bytes, 1, sizeof f->bytes, from);
    fclose(from);
    writes_again(f);
    traces_named();
}

int main(int argc, char **argv)
{
    p1_to_p5();
    p6_to_p11();
    guardrun_example();
    spread(15, "0");
    spread(16, "10 at 0");
    feeding();
    halting();
    EXPECT(guard_check(NULL, 0).refusal == 1 && !guard_check(NULL, 0).place.given);
    writes_small_policies();
    refuses_rules_4_to_10();
    places_of_4();
    places_of_5();
    places_of_6();
    places_of_7();
    places_of_8();
    places_of_9_and_10();
    refuses_broken_records();
    refuses_counts();
    counts_one_leaf();
    counts_two_sides();
    counts_inner_nodes(6, END, "a1 =1", 1); /* the "or" has ended, and V is dropped */
    counts_inner_nodes(7, END, "a1 =1", 1);
    counts_inner_nodes(6, HALT, "a1 =1", 2); /* passed over, V goes on */
    counts_inner_nodes(4, END, "a1 =1", 2);
    counts_inner_nodes(5, HALT, "=5", 0);
    counts_sixteen();
    refuses_counts_in_states();
    refuses_lengths();
    traces_one_leaf();
    traces_decided_roots();
    traces_refused();
    traces_unopened();
    counts_stop();
    traces_two_leaves();
    traces_deciding_inserts();
    traces_every_step();
    traces_at_length();
    traces_small_policies();
    for (int i = 1; i < argc; i++) {
        try_named(argv[i]);
    }
    printf("%u checks hold\n", checks);
    return 0;
}
