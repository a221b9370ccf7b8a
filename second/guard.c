/* guard.c: a policy guard written by hand from 01, and 02's writer, places, count and trace run; their sentences stand in quotation marks. */
#include "guard.h"

#include <stdbool.h>
#include <string.h>

#ifdef GUARD_GIVEN
unsigned long guard_given[8];
#define GIVEN(index) (guard_given[(index)]++)
#else
#define GIVEN(index) ((void)0)
#endif

/* ------------------------------------------------------------------ */
/* Action sets: "the empty set, the set of one action, union, common
 * part and difference, kept together as one type's own operations".    */

static const guard_set EMPTY = {0};

static inline guard_set set_of(uint8_t action)
{
    return (guard_set){UINT64_C(1) << action};
}

static inline guard_set set_union(guard_set a, guard_set b)
{
    return (guard_set){a.bits | b.bits};
}

static inline guard_set set_common(guard_set a, guard_set b)
{
    return (guard_set){a.bits & b.bits};
}

static inline guard_set set_difference(guard_set a, guard_set b)
{
    return (guard_set){a.bits & ~b.bits};
}

static inline bool set_is_empty(guard_set a)
{
    return a.bits == 0;
}

static inline bool set_has(guard_set a, uint8_t action)
{
    return (a.bits >> action & 1u) != 0;
}

/* ------------------------------------------------------------------ */
/* The file: "Big-endian, length first." It is read where the caller
 * keeps it; only facts that the file does not hold are kept beside it. */

enum { HEADER_BYTES = 6, NODE_BYTES = 16, STEP_BYTES = 12, RECORD_BYTES = 8, VERSION = 1 };
enum { MAX_LEAF_STEPS = 64, MAX_SPREAD = 255, MAX_ACTION = 63 };

enum node_kind {
    LEAF = 1,
    TRIVIAL = 2,
    UNSATISFIABLE = 3,
    PARALLEL_AND = 4,
    SEQUENTIAL_AND = 5,
    PARALLEL_OR = 6,
    SEQUENTIAL_OR = 7
};

enum step_kind { NEXT = 1, OK = 2, SUP = 3, INS = 4, ACASE = 5, SPEND = 6, END = 7, HALT = 8 };

/* Places of a node's and of a step's fields in its record. */
enum { NODE_LEFT = 1, NODE_RIGHT = 2, NODE_STEPS = 3, NODE_START = 4, NODE_SET = 8 };
enum { STEP_ACTION = 1, STEP_FIRST = 2, STEP_SECOND = 3, STEP_OPERAND = 4 };

#define NO_NODE 0xFFu

struct policy {
    const uint8_t *nodes;
    const uint8_t *steps;
    unsigned n;
    unsigned m;
    uint8_t offender;                     /* with rule 9 or 10 broken: the lowest
                                             node that breaks it */
    uint16_t first[GUARD_MAX_NODES];      /* a leaf's first step in the file */
    uint8_t feeder[GUARD_MAX_NODES];      /* nearest sequential node to whose
                                             left side the node belongs */
    guard_set regulated[GUARD_MAX_NODES]; /* of every node, inner ones too */
};

static inline unsigned be16(const uint8_t *b)
{
    return (unsigned)b[0] << 8 | b[1];
}

static inline uint32_t be32(const uint8_t *b)
{
    return (uint32_t)b[0] << 24 | (uint32_t)b[1] << 16 | (uint32_t)b[2] << 8 | b[3];
}

static inline uint64_t be64(const uint8_t *b)
{
    return (uint64_t)be32(b) << 32 | be32(b + 4);
}

static inline const uint8_t *node_at(const struct policy *p, unsigned node)
{
    return p->nodes + (size_t)NODE_BYTES * node;
}

static inline const uint8_t *step_at(const struct policy *p, unsigned leaf, unsigned offset)
{
    return p->steps + (size_t)STEP_BYTES * (p->first[leaf] + offset);
}

static inline bool is_inner(unsigned kind)
{
    return kind >= PARALLEL_AND;
}

static inline bool is_sequential(unsigned kind)
{
    return kind == SEQUENTIAL_AND || kind == SEQUENTIAL_OR;
}

static inline bool is_and(unsigned kind)
{
    return kind == PARALLEL_AND || kind == SEQUENTIAL_AND;
}

/* ------------------------------------------------------------------ */
/* The check, rules 1 to 6.                                             */

/* "nodes n, 1 to 31", "steps m, 0 to 512" */
static bool in_range(size_t n, size_t m)
{
    return n >= 1 && n <= GUARD_MAX_NODES && m <= GUARD_MAX_STEPS;
}

/* "Length is 6 + 16n + 12m, at most 6,646." */
static size_t file_length(const struct policy *p)
{
    return HEADER_BYTES + (size_t)NODE_BYTES * p->n + (size_t)STEP_BYTES * p->m;
}

/* Rules 1 to 3: the six leading bytes and the length. */
static uint8_t read_header(struct policy *p, const uint8_t *bytes, size_t length)
{
    if (length < HEADER_BYTES || be16(bytes) != length) {
        return 1;
    }
    if (bytes[2] != VERSION) {
        return 2;
    }
    p->n = bytes[3];
    p->m = be16(bytes + 4);
    if (!in_range(p->n, p->m) || length != file_length(p)) {
        return 3;
    }
    p->nodes = bytes + HEADER_BYTES;
    p->steps = p->nodes + (size_t)NODE_BYTES * p->n;
    return 0;
}

/* Rule 4 for a node, "child numbers apart". */
static inline bool node_is_laid_out(const uint8_t *node)
{
    const bool no_sides = node[NODE_LEFT] == 0 && node[NODE_RIGHT] == 0;
    const bool no_steps = node[NODE_STEPS] == 0;
    const bool no_start = be32(node + NODE_START) == 0;
    const bool no_set = be64(node + NODE_SET) == 0;

    switch (node[0]) {
    case LEAF: /* "step count 1 to 64 and a set that isn't empty; its left and
                * right are zero, its counter start is free" */
        return no_sides && !no_steps && node[NODE_STEPS] <= MAX_LEAF_STEPS && !no_set;
    case TRIVIAL:
    case UNSATISFIABLE: /* "zeros in all other fields" */
        return no_sides && no_steps && no_start && no_set;
    case PARALLEL_AND:
    case SEQUENTIAL_AND:
    case PARALLEL_OR:
    case SEQUENTIAL_OR: /* "zeros in step count, counter and set" */
        return no_steps && no_start && no_set;
    default:
        return false;
    }
}

/* Rule 4 for a step: the bits of its record that must be zero, by kind.
 * "Fields not used are zero. An action is at most 63, n at most 4,294,967,295."
 * The first four bytes are kind, action, first target, second target. */
static const struct {
    uint32_t head;
    uint64_t operand;
} MUST_BE_ZERO[HALT + 1] = {
    [NEXT] = {0x00FF0000u, UINT64_MAX},
    [OK] = {0x00FF00FFu, UINT64_MAX},
    [SUP] = {0x00FF00FFu, UINT64_MAX},
    [INS] = {0x00C000FFu, UINT64_MAX},
    [ACASE] = {0x00FF0000u, 0},
    [SPEND] = {0x00FF0000u, 0xFFFFFFFF00000000u},
    [END] = {0x00FFFFFFu, UINT64_MAX},
    [HALT] = {0x00FFFFFFu, UINT64_MAX},
};

static inline bool step_is_laid_out(const uint8_t *step)
{
    const unsigned kind = step[0];

    return kind >= NEXT && kind <= HALT &&
           (be32(step) & MUST_BE_ZERO[kind].head) == 0 &&
           (be64(step + STEP_OPERAND) & MUST_BE_ZERO[kind].operand) == 0;
}

/* Rule 4: "a field of a node or step breaks the layout above". */
static bool layout_holds(const struct policy *p)
{
    const uint8_t *step = p->steps;

    for (unsigned k = 0; k < p->n; k++) {
        if (!node_is_laid_out(node_at(p, k))) {
            return false;
        }
    }
    for (unsigned s = 0; s < p->m; s++, step += STEP_BYTES) {
        if (!step_is_laid_out(step)) {
            return false;
        }
    }
    return true;
}

/* Rule 5: "A child's number is greater than its parent's and less than n;
 * every node but 0 is a child exactly once." A parent comes before its
 * children, so its feeder is known when theirs is set. */
static bool tree_holds(struct policy *p)
{
    uint32_t seen = 1;

    p->feeder[0] = NO_NODE;
    for (unsigned k = 0; k < p->n; k++) {
        const uint8_t *node = node_at(p, k);
        if (!is_inner(node[0])) {
            continue;
        }
        for (unsigned side = NODE_LEFT; side <= NODE_RIGHT; side++) {
            const unsigned child = node[side];
            if (child <= k || child >= p->n || (seen >> child & 1u) != 0) {
                return false;
            }
            seen |= UINT32_C(1) << child;
            p->feeder[child] = (side == NODE_LEFT && is_sequential(node[0]))
                                   ? (uint8_t)k
                                   : p->feeder[k];
        }
    }
    return seen == (UINT32_C(1) << p->n) - 1;
}

/* How many of its two target fields a kind of step uses. */
static const uint8_t TARGETS[HALT + 1] = {
    [NEXT] = 2, [OK] = 1, [SUP] = 1, [INS] = 1, [ACASE] = 2, [SPEND] = 2,
};

/* Rule 6 for a step of a leaf, whose own steps, their number and set these are: its
 * targets, and the set of an acase. */
static inline bool step_holds(const uint8_t *own, unsigned count, guard_set set, unsigned offset)
{
    const uint8_t *step = own + STEP_BYTES * offset;

    for (unsigned t = 0; t < TARGETS[step[0]]; t++) {
        const unsigned target = step[STEP_FIRST + t];
        if (target >= count || (target <= offset && own[STEP_BYTES * target] != NEXT)) {
            return false;
        }
    }
    return step[0] != ACASE ||
           set_is_empty(set_difference((guard_set){be64(step + STEP_OPERAND)}, set));
}

static bool leaf_steps_hold(const struct policy *p, unsigned leaf)
{
    const uint8_t *node = node_at(p, leaf);
    const uint8_t *own = step_at(p, leaf, 0);
    const guard_set set = {be64(node + NODE_SET)};
    const unsigned count = node[NODE_STEPS];

    for (unsigned offset = 0; offset < count; offset++) {
        if (!step_holds(own, count, set, offset)) {
            return false;
        }
    }
    return true;
}

/* Rule 6. "Each leaf owns the next run of steps, leaves in node order." */
static bool steps_hold(struct policy *p)
{
    unsigned total = 0;

    for (unsigned k = 0; k < p->n; k++) {
        p->first[k] = (uint16_t)total;
        total += node_at(p, k)[NODE_STEPS]; /* zero but in a leaf */
    }
    if (total != p->m) {
        return false;
    }
    for (unsigned k = 0; k < p->n; k++) {
        if (node_at(p, k)[0] == LEAF && !leaf_steps_hold(p, k)) {
            return false;
        }
    }
    return true;
}

/* ------------------------------------------------------------------ */
/* The check, rules 7 and 8: modes and possible actions of one leaf.    */

/* "Three modes: idle, pending, closing", one bit each, so that the modes in
 * which a step is reached are the union of the bits. */
enum { IDLE = 1, PENDING = 2, CLOSING = 4, STANDS = 8 };

/* Step kind against the modes it is reached in. 0: refused, because never
 * reached, reached in two modes, or a kind that may not stand there. Otherwise
 * the mode that follows; STANDS where none follows. A next's done target is
 * reached closing besides. */
static const uint8_t FOLLOWS[HALT + 1][8] = {
    [NEXT] = {[IDLE] = PENDING},
    [OK] = {[PENDING] = IDLE},
    [SUP] = {[PENDING] = IDLE},
    [INS] = {[IDLE] = IDLE, [PENDING] = PENDING, [CLOSING] = CLOSING},
    [ACASE] = {[PENDING] = PENDING},
    [SPEND] = {[IDLE] = IDLE, [PENDING] = PENDING, [CLOSING] = CLOSING},
    [END] = {[IDLE] = STANDS, [PENDING] = STANDS, [CLOSING] = STANDS},
    [HALT] = {[IDLE] = STANDS, [PENDING] = STANDS, [CLOSING] = STANDS},
};

struct flow {
    uint8_t modes[MAX_LEAF_STEPS];
    guard_set possible[MAX_LEAF_STEPS]; /* "the union over the steps that lead to it" */
};

/* One step leads to another. A target that is not later is a next (rule 6),
 * which has been passed already: "a next reached in other than idle mode" is
 * refused here. */
static bool lead(struct flow *f, unsigned from, unsigned to, uint8_t mode, guard_set possible)
{
    f->modes[to] |= mode;
    f->possible[to] = set_union(f->possible[to], possible);
    return to > from || mode == IDLE;
}

struct leaf_facts {
    guard_set effect;
    unsigned inserts;
};

/* What follows a step that stands: passes mode and possible actions on to its
 * targets and adds to the leaf's effects. Answers 0, 7 or 8. */
static uint8_t follow(struct flow *f, unsigned offset, const uint8_t *step, uint8_t mode,
                      guard_set set, struct leaf_facts *facts)
{
    const unsigned first = step[STEP_FIRST];
    const unsigned second = step[STEP_SECOND];
    const guard_set possible = f->possible[offset];
    guard_set yes, no;
    bool leads = true;

    switch (step[0]) {
    case NEXT: /* "At a take target: the leaf's set." */
        leads = lead(f, offset, first, PENDING, set) &&
                lead(f, offset, second, CLOSING, EMPTY);
        break;
    case SUP: /* "for each sup, its possible actions" */
        facts->effect = set_union(facts->effect, possible);
        leads = lead(f, offset, first, mode, EMPTY);
        break;
    case OK:
        leads = lead(f, offset, first, mode, EMPTY);
        break;
    case INS:
        facts->effect = set_union(facts->effect, set_of(step[STEP_ACTION]));
        facts->inserts++;
        leads = lead(f, offset, first, mode, possible);
        break;
    case SPEND:
        leads = lead(f, offset, first, mode, possible) &&
                lead(f, offset, second, mode, possible);
        break;
    case ACASE: /* "the common part to yes and the rest to no" */
        yes = set_common(possible, (guard_set){be64(step + STEP_OPERAND)});
        no = set_difference(possible, yes);
        leads = lead(f, offset, first, mode, yes) && lead(f, offset, second, mode, no);
        if (leads && (set_is_empty(yes) || set_is_empty(no))) {
            return 8; /* "a branch that no possible action takes" */
        }
        break;
    default: /* end and halt lead nowhere */
        break;
    }
    return leads ? 0 : 7;
}

/* Rules 7 and 8 for one leaf; its effect set and its number of ins steps. A
 * step that is no next is led to by earlier steps only, so one pass in order
 * of offset sees every step after all that lead to it. */
static uint8_t leaf_flow(const struct policy *p, unsigned leaf, struct leaf_facts *facts)
{
    const uint8_t *node = node_at(p, leaf);
    const uint8_t *own = step_at(p, leaf, 0);
    const guard_set set = {be64(node + NODE_SET)};
    const unsigned count = node[NODE_STEPS];
    uint8_t refusal = 0;
    struct flow f;

    memset(f.modes, 0, count);
    memset(f.possible, 0, count * sizeof f.possible[0]);
    f.modes[0] = IDLE; /* "Offset 0 is reached idle" */
    for (unsigned offset = 0; offset < count; offset++) {
        const uint8_t *step = own + STEP_BYTES * offset;
        if (step[0] == NEXT) {
            f.modes[offset] |= IDLE; /* "every next counts as reached idle" */
        }
        const uint8_t mode = FOLLOWS[step[0]][f.modes[offset]];
        if (mode == 0) {
            return 7;
        }
        const uint8_t found = follow(&f, offset, step, mode, set, facts);
        if (found == 7) {
            return 7;
        }
        refusal |= found; /* 0 or 8 */
    }
    return refusal;
}

/* ------------------------------------------------------------------ */
/* The check, rules 7 to 10 over the whole file.                        */

struct node_facts {
    guard_set effect;
    unsigned spread; /* kept at MAX_SPREAD + 1 when above */
};

/* "Kinds 4, 6: sum. Kinds 5, 7: (1 + left) times (1 + right), less 1." */
static unsigned join_spread(unsigned kind, unsigned left, unsigned right)
{
    const unsigned spread =
        is_sequential(kind) ? (1 + left) * (1 + right) - 1 : left + right;

    return spread > MAX_SPREAD ? MAX_SPREAD + 1 : spread;
}

/* Rules 7 and 8: every leaf, and the facts of every node that has no sides. */
static uint8_t check_leaves(struct policy *p, struct node_facts *facts)
{
    uint8_t refusal = 0;

    for (unsigned k = 0; k < p->n; k++) {
        const uint8_t *node = node_at(p, k);
        struct leaf_facts leaf = {EMPTY, 0};
        if (node[0] == LEAF) {
            const uint8_t found = leaf_flow(p, k, &leaf);
            if (found == 7) {
                return 7;
            }
            refusal |= found;
        }
        p->regulated[k] = (guard_set){be64(node + NODE_SET)}; /* zero but in a leaf */
        facts[k] = (struct node_facts){leaf.effect, leaf.inserts};
    }
    return refusal;
}

/* Rules 9 and 10: a child's number is greater, so sides come before their
 * node when numbers fall. The last node found is then the lowest, 02's place. */
static uint8_t check_inner(struct policy *p, struct node_facts *facts)
{
    unsigned interferes = NO_NODE;
    unsigned too_wide = NO_NODE;

    for (unsigned k = p->n; k-- > 0;) {
        const uint8_t *node = node_at(p, k);
        if (!is_inner(node[0])) {
            continue;
        }
        const unsigned l = node[NODE_LEFT];
        const unsigned r = node[NODE_RIGHT];
        /* "for kinds 4 and 6, a side's effect set meets the other's regulated set" */
        if (!is_sequential(node[0]) &&
            (!set_is_empty(set_common(facts[l].effect, p->regulated[r])) ||
             !set_is_empty(set_common(facts[r].effect, p->regulated[l])))) {
            interferes = k;
        }
        p->regulated[k] = set_union(p->regulated[l], p->regulated[r]);
        facts[k].effect = set_union(facts[l].effect, facts[r].effect);
        facts[k].spread = join_spread(node[0], facts[l].spread, facts[r].spread);
        if (facts[k].spread > MAX_SPREAD) {
            too_wide = k;
        }
    }
    if (interferes != NO_NODE) {
        p->offender = (uint8_t)interferes;
        return 9;
    }
    if (too_wide != NO_NODE) {
        p->offender = (uint8_t)too_wide;
        return 10;
    }
    return 0;
}

/* Rules 4 to 10. "Each rule is tried over the whole file." "The lowest number that
 * applies is given." Fills the view p, whose records and counts are there already;
 * *effect is the root's effect set. */
static uint8_t check_records(struct policy *p, guard_set *effect)
{
    struct node_facts facts[GUARD_MAX_NODES];
    uint8_t refusal;

    if (!layout_holds(p)) {
        return 4;
    }
    if (!tree_holds(p)) {
        return 5;
    }
    if (!steps_hold(p)) {
        return 6;
    }
    refusal = check_leaves(p, facts);
    if (refusal == 0) {
        refusal = check_inner(p, facts);
    }
    *effect = facts[0].effect;
    return refusal;
}

/* Rules 1 to 10. Fills the view p; *effect is the root's effect set. */
static uint8_t check_policy(struct policy *p, const uint8_t *bytes, size_t length,
                            guard_set *effect)
{
    const uint8_t refusal = read_header(p, bytes, length);

    return refusal != 0 ? refusal : check_records(p, effect);
}

/* ------------------------------------------------------------------ */
/* Places. 02, Req 03: "Refusals 4 to 10 shall also carry a place: the
 * lowest-numbered node or step that breaks that rule."
 *
 * A place is looked for only once its rule is known to be broken and the rules
 * before it to hold, so that a file that passes pays nothing, and every search
 * below ends at a record that is there. */

/* Rule 4: "nodes come before steps, and step i counts as n + i". */
static unsigned place_in_layout(const struct policy *p)
{
    unsigned k = 0, s = 0;

    while (k < p->n && node_is_laid_out(node_at(p, k))) {
        k++;
    }
    if (k < p->n) {
        return k;
    }
    while (step_is_laid_out(p->steps + (size_t)STEP_BYTES * s)) {
        s++;
    }
    return p->n + s;
}

/* A child not "greater than its parent's and less than n". */
static bool has_bad_child(const struct policy *p, unsigned k)
{
    const uint8_t *node = node_at(p, k);

    return is_inner(node[0]) && (node[NODE_LEFT] <= k || node[NODE_LEFT] >= p->n ||
                                 node[NODE_RIGHT] <= k || node[NODE_RIGHT] >= p->n);
}

/* How many child fields name a node; that of a bad child counts too. */
static unsigned times_named(const struct policy *p, unsigned child)
{
    unsigned times = 0;

    for (unsigned k = 0; k < p->n; k++) {
        const uint8_t *node = node_at(p, k);
        if (is_inner(node[0])) {
            times += (node[NODE_LEFT] == child) + (node[NODE_RIGHT] == child);
        }
    }
    return times;
}

/* Rule 5: "the lowest node that has a bad child or, 0 apart, isn't a child exactly
 * once". tree_holds stops at a node that names, often after the one that is named. */
static unsigned place_in_tree(const struct policy *p)
{
    unsigned k = 0;

    while (!has_bad_child(p, k) && (k == 0 || times_named(p, k) == 1)) {
        k++;
    }
    return k;
}

/* Rules 6 to 8 are looked for leaf by leaf: the answer is the offset in the leaf, or
 * its number of steps where it keeps to the rule. */

/* Rule 6: the step that holds a bad target or a bad set. */
static unsigned place_in_targets(const struct policy *p, unsigned leaf)
{
    const uint8_t *node = node_at(p, leaf);
    const guard_set set = {be64(node + NODE_SET)};
    unsigned offset = 0;

    while (offset < node[NODE_STEPS] &&
           step_holds(step_at(p, leaf, 0), node[NODE_STEPS], set, offset)) {
        offset++;
    }
    return offset;
}

/* Rule 7: first all modes of all steps, then the lowest step that breaks the rule,
 * as it may by what a later step leads to. A step leads on from each mode in which
 * it may stand, and from no other. One pass in order of offset is enough: what is
 * led back to is a next, which leads on from idle mode alone, and is reached idle in
 * any case. */
static unsigned place_in_modes(const struct policy *p, unsigned leaf)
{
    const unsigned count = node_at(p, leaf)[NODE_STEPS];
    uint8_t modes[MAX_LEAF_STEPS] = {IDLE};
    unsigned place = 0;

    for (unsigned offset = 0; offset < count; offset++) {
        const uint8_t *step = step_at(p, leaf, offset);
        modes[offset] |= step[0] == NEXT ? IDLE : 0;
        for (unsigned mode = IDLE; mode <= CLOSING; mode <<= 1) {
            const uint8_t follows = FOLLOWS[step[0]][modes[offset] & mode];
            for (unsigned t = 0; follows != 0 && t < TARGETS[step[0]]; t++) {
                modes[step[STEP_FIRST + t]] |= step[0] == NEXT && t == 1 ? CLOSING : follows;
            }
        }
    }
    while (place < count && FOLLOWS[step_at(p, leaf, place)[0]][modes[place]] != 0) {
        place++;
    }
    return place;
}

/* Rule 8, where rule 7 holds: the lowest acase with "a branch that no possible action
 * takes". When it is looked at, all that leads to it has been. */
static unsigned place_in_branches(const struct policy *p, unsigned leaf)
{
    const uint8_t *node = node_at(p, leaf);
    guard_set possible[MAX_LEAF_STEPS] = {EMPTY};
    unsigned offset;

    for (offset = 0; offset < node[NODE_STEPS]; offset++) {
        const uint8_t *step = step_at(p, leaf, offset);
        guard_set passed[2] = {EMPTY, EMPTY}; /* on to each target */

        if (step[0] == NEXT) {
            passed[0] = (guard_set){be64(node + NODE_SET)};
        } else if (step[0] == INS || step[0] == SPEND) {
            passed[0] = passed[1] = possible[offset];
        } else if (step[0] == ACASE) {
            passed[0] = set_common(possible[offset], (guard_set){be64(step + STEP_OPERAND)});
            passed[1] = set_difference(possible[offset], passed[0]);
            if (set_is_empty(passed[0]) || set_is_empty(passed[1])) {
                break;
            }
        }
        for (unsigned t = 0; t < TARGETS[step[0]]; t++) {
            guard_set *to = &possible[step[STEP_FIRST + t]];
            *to = set_union(*to, passed[t]);
        }
    }
    return offset;
}

/* Rules 6 to 8: steps of a later leaf have greater numbers, so the first leaf that
 * breaks the rule has the lowest step. */
static unsigned place_in_leaves(const struct policy *p,
                                unsigned (*search)(const struct policy *, unsigned))
{
    for (unsigned k = 0;; k++) {
        const uint8_t *node = node_at(p, k);
        if (node[0] == LEAF) {
            const unsigned offset = search(p, k);
            if (offset < node[NODE_STEPS]) {
                return p->first[k] + offset;
            }
        }
    }
}

/* "For 6 with a wrong sum it is 0." */
static bool sum_holds(const struct policy *p)
{
    unsigned total = 0;

    for (unsigned k = 0; k < p->n; k++) {
        total += node_at(p, k)[NODE_STEPS];
    }
    return total == p->m;
}

/* The place of a refusal, where there is one. "For 9 and 10 it is the node", which
 * check_inner has left in p: it needs the facts of all nodes. */
static guard_place place_of(const struct policy *p, uint8_t refusal)
{
    unsigned place;

    switch (refusal) {
    case 4:
        place = place_in_layout(p);
        break;
    case 5:
        place = place_in_tree(p);
        break;
    case 6:
        place = sum_holds(p) ? place_in_leaves(p, place_in_targets) : 0;
        break;
    case 7:
        place = place_in_leaves(p, place_in_modes);
        break;
    case 8:
        place = place_in_leaves(p, place_in_branches);
        break;
    case 9:
    case 10:
        place = p->offender;
        break;
    default: /* 1 to 3 and from 11 on: no record is to blame */
        return (guard_place){false, 0};
    }
    return (guard_place){true, (uint16_t)place};
}

/* ------------------------------------------------------------------ */
/* Statuses and the saved state.                                        */

/* The state begins with 02's "8 new bytes in front, the last one the count, the
 * others zero"; the records come after them, one per node number. */
enum { FRONT_BYTES = 8, FRONT_COUNT = 7 };

/* A record of the state: "status, offset, two zeros, counter (4)". */
enum { RECORD_OFFSET = 1, RECORD_ZEROS = 2, RECORD_COUNTER = 4 };

static inline const uint8_t *saved_record(const uint8_t *state, unsigned k)
{
    return state + FRONT_BYTES + (size_t)RECORD_BYTES * k;
}

/* What 02's count counts: a trivial or unsatisfiable node is no leaf. */
static inline bool is_running_leaf(const uint8_t *node, const uint8_t *record)
{
    return node[0] == LEAF && record[0] == GUARD_RUNNING;
}

static inline bool has_ended(unsigned status)
{
    return status >= GUARD_ENDED && status <= GUARD_ENDED_RIGHT;
}

/* The status of a node that has been running, from its two sides.
 * "And": "halted once a side has halted; ended once both have ended". "Or":
 * "ended left once the left has ended, otherwise ended right once the right has
 * ended; halted once both have halted". */
static uint8_t joined_status(unsigned kind, unsigned left, unsigned right)
{
    if (is_and(kind)) {
        if (left == GUARD_HALTED || right == GUARD_HALTED) {
            return GUARD_HALTED;
        }
        return has_ended(left) && has_ended(right) ? GUARD_ENDED : GUARD_RUNNING;
    }
    if (has_ended(left)) {
        return GUARD_ENDED_LEFT;
    }
    if (has_ended(right)) {
        return GUARD_ENDED_RIGHT;
    }
    return left == GUARD_HALTED && right == GUARD_HALTED ? GUARD_HALTED : GUARD_RUNNING;
}

static void put_record(uint8_t *record, uint8_t status, uint8_t offset, uint32_t counter)
{
    record[0] = status;
    record[RECORD_OFFSET] = offset;
    record[RECORD_COUNTER] = (uint8_t)(counter >> 24);
    record[RECORD_COUNTER + 1] = (uint8_t)(counter >> 16);
    record[RECORD_COUNTER + 2] = (uint8_t)(counter >> 8);
    record[RECORD_COUNTER + 3] = (uint8_t)counter;
}

/* "a leaf is 1, 2, 5 or 6, trivial 2 or 6, unsatisfiable 5 or 6, "and" 1, 2, 5
 * or 6, "or" 1, 3, 4, 5 or 6": bit s stands for status s. */
static const uint8_t MAY_HOLD[SEQUENTIAL_OR + 1] = {
    [LEAF] = 1u << 1 | 1u << 2 | 1u << 5 | 1u << 6,
    [TRIVIAL] = 1u << 2 | 1u << 6,
    [UNSATISFIABLE] = 1u << 5 | 1u << 6,
    [PARALLEL_AND] = 1u << 1 | 1u << 2 | 1u << 5 | 1u << 6,
    [SEQUENTIAL_AND] = 1u << 1 | 1u << 2 | 1u << 5 | 1u << 6,
    [PARALLEL_OR] = 1u << 1 | 1u << 3 | 1u << 4 | 1u << 5 | 1u << 6,
    [SEQUENTIAL_OR] = 1u << 1 | 1u << 3 | 1u << 4 | 1u << 5 | 1u << 6,
};

/* "a running leaf has the offset of a next and a counter at most its start; all
 * other offsets and counters are zero" */
static bool place_fits(const struct policy *p, unsigned k, const uint8_t *record)
{
    const uint8_t *node = node_at(p, k);
    const unsigned offset = record[RECORD_OFFSET];
    const uint32_t counter = be32(record + RECORD_COUNTER);

    if (is_running_leaf(node, record)) {
        return offset < node[NODE_STEPS] && step_at(p, k, offset)[0] == NEXT &&
               counter <= be32(node + NODE_START);
    }
    return offset == 0 && counter == 0;
}

/* The two sides of an inner node against its own status: "another node is
 * dropped exactly when its parent is decided or dropped"; "a running "and" has
 * no halted side and not both ended, a running "or" no ended side and not both
 * halted". */
static bool sides_fit(const uint8_t *node, uint8_t status, const uint8_t *state)
{
    const unsigned left = *saved_record(state, node[NODE_LEFT]);
    const unsigned right = *saved_record(state, node[NODE_RIGHT]);

    if (status == GUARD_RUNNING) {
        return left != GUARD_DROPPED && right != GUARD_DROPPED &&
               joined_status(node[0], left, right) == GUARD_RUNNING;
    }
    return left == GUARD_DROPPED && right == GUARD_DROPPED;
}

/* Rule 12: "the state doesn't fit the policy", and it "covers a wrong count". */
static bool state_fits(const struct policy *p, const uint8_t *state)
{
    uint64_t running = 0;

    if (*saved_record(state, 0) == GUARD_DROPPED) {
        return false; /* "the root is not dropped" */
    }
    for (unsigned k = 0; k < p->n; k++) {
        const uint8_t *node = node_at(p, k);
        const uint8_t *record = saved_record(state, k);
        if (record[0] > GUARD_DROPPED || (MAY_HOLD[node[0]] >> record[0] & 1u) == 0 ||
            record[RECORD_ZEROS] != 0 || record[RECORD_ZEROS + 1] != 0 ||
            !place_fits(p, k, record) ||
            (is_inner(node[0]) && !sides_fit(node, record[0], state))) {
            return false;
        }
        running += is_running_leaf(node, record);
    }
    for (const uint8_t *b = saved_record(state, p->n); b < state + GUARD_STATE_BYTES; b++) {
        if (*b != 0) {
            return false; /* "node records from n on ... are zero" */
        }
    }
    return be64(state) == running; /* the last byte the count, "the others zero" */
}

/* ------------------------------------------------------------------ */
/* Turns.
 *
 * Every node has one function for all phases. A node is at work at most once
 * at a time: its turn calls its sides; an insert goes up to the nearest
 * sequential node that must give it on, and from there down into that node's
 * right side, which is not at work. So there are never more than 31 node
 * frames, whatever the policy. */

enum phase { OPENING, BEFORE, AFTER, CLOSING_DOWN };

/* How a phase of a node came out. Only BEFORE tells accepted and suppressed
 * apart; elsewhere ACCEPTED means that the phase was run. STOPPED: a node above
 * was decided by an insert, and this node's later steps never run. */
enum outcome { ACCEPTED, SUPPRESSED, HALTS, STOPPED };

struct run {
    const struct policy *p;
    uint8_t *state;
    uint8_t *events;
    uint16_t count;
    uint32_t asked;     /* bit k: node k was asked and its AFTER is still to come */
    guard_tally *tally; /* 02, Req 05: NULL but in a trace run */
};

static enum outcome run_node(struct run *g, unsigned k, enum phase phase, uint8_t action);

static inline uint8_t *record_at(const struct run *g, unsigned k)
{
    return g->state + FRONT_BYTES + (size_t)RECORD_BYTES * k;
}

static inline bool is_running(const struct run *g, unsigned k)
{
    return *record_at(g, k) == GUARD_RUNNING;
}

/* "Only a running node that regulates a is asked; the rest accept." */
static inline bool is_asked(const struct run *g, unsigned k, uint8_t action)
{
    return is_running(g, k) && set_has(g->p->regulated[k], action);
}

/* Does a side take part in a phase? Only what runs does. "Closing ... sends
 * every running leaf to its done target"; when opening, "a side not yet opened
 * counts as running". */
static bool takes_part(const struct run *g, unsigned k, enum phase phase, uint8_t action)
{
    switch (phase) {
    case BEFORE:
        return is_asked(g, k, action);
    case AFTER:
        return is_running(g, k) && (g->asked >> k & 1u) != 0;
    default:
        return is_running(g, k);
    }
}

/* At most spread + 1 events, so at most 512 bytes (rule 10). */
static void put_event(struct run *g, enum guard_event what, uint8_t action)
{
    uint8_t *event = g->events + 2u * g->count++;

    event[0] = (uint8_t)what;
    event[1] = action;
}

/* A node's status is read from those of its sides. */
static uint8_t read_status(struct run *g, unsigned k)
{
    const uint8_t *node = node_at(g->p, k);
    uint8_t *record = record_at(g, k);

    record[0] = joined_status(node[0], *record_at(g, node[NODE_LEFT]),
                              *record_at(g, node[NODE_RIGHT]));
    return record[0];
}

static bool give_out(struct run *g, unsigned k, uint8_t action);

/* An insert of the left side of k "is given to the right as a turn of its own.
 * Accepted, it is emitted between that turn's phases; suppressed, nothing is
 * emitted; where the right halts instead, nothing is emitted in kind 5, but in
 * kind 7 the insert is." The left waits, and its status stays what it was:
 * running. Answers whether the left goes on: "Status is read after each insert
 * ...; a decided node stops there". */
static bool feed(struct run *g, unsigned k, uint8_t action)
{
    const uint8_t *node = node_at(g->p, k);
    const unsigned right = node[NODE_RIGHT];
    const enum outcome outcome = run_node(g, right, BEFORE, action);

    if (outcome == STOPPED) {
        return false;
    }
    GIVEN((node[0] == SEQUENTIAL_OR ? 3u : 0u) + (unsigned)outcome);
    if (outcome == ACCEPTED || (outcome == HALTS && node[0] == SEQUENTIAL_OR)) {
        if (!give_out(g, k, action)) {
            return false;
        }
    }
    if (is_running(g, right) && run_node(g, right, AFTER, action) == STOPPED) {
        return false;
    }
    if (read_status(g, k) != GUARD_RUNNING) {
        GIVEN(node[0] == SEQUENTIAL_OR ? 7u : 6u);
        return false;
    }
    return true;
}

/* Node k lets out an insert. The nearest sequential node above, whose left it
 * comes from and whose right is asked, takes it; "Other inserts go straight
 * out." They change no side of the nodes they pass, so reading those nodes'
 * statuses again would change nothing. Answers whether k goes on. */
static bool give_out(struct run *g, unsigned k, uint8_t action)
{
    for (unsigned up = g->p->feeder[k]; up != NO_NODE; up = g->p->feeder[up]) {
        if (is_asked(g, node_at(g->p, up)[NODE_RIGHT], action)) {
            return feed(g, up, action);
        }
    }
    put_event(g, GUARD_INSERTED, action);
    return true;
}

/* "counts stop at 4,294,967,295" */
static inline void count_up(uint32_t *count)
{
    *count += *count < UINT32_MAX;
}

/* 02, Req 05: "for each step how often it ran". Its number in the tally is that in the
 * whole file. Where no tally is lent, a step pays for one test. */
static inline void count_step(const struct run *g, const uint8_t *step)
{
    if (g->tally != NULL) {
        count_up(&g->tally->steps[(size_t)(step - g->p->steps) / STEP_BYTES]);
    }
}

/* Runs a leaf from an offset to where its phase ends: a next, ok, sup, end or
 * halt. The check's modes see to it that ok, sup and acase are met before the
 * verdict only, and a next never before the verdict or when closing. After ok
 * and sup the record holds where the leaf goes on after the verdict. */
static enum outcome run_leaf(struct run *g, unsigned leaf, unsigned offset, uint8_t action)
{
    const uint8_t *own = step_at(g->p, leaf, 0);
    uint8_t *record = record_at(g, leaf);
    uint32_t counter = be32(record + RECORD_COUNTER);
    uint32_t amount;

    for (;;) {
        const uint8_t *step = own + (size_t)STEP_BYTES * offset;
        switch (step[0]) {
        case NEXT: /* not counted: it hasn't run until it is left */
            put_record(record, GUARD_RUNNING, (uint8_t)offset, counter);
            return ACCEPTED;
        case OK:
            count_step(g, step);
            put_record(record, GUARD_RUNNING, step[STEP_FIRST], counter);
            return ACCEPTED;
        case SUP:
            count_step(g, step);
            put_record(record, GUARD_RUNNING, step[STEP_FIRST], counter);
            return SUPPRESSED;
        case INS:
            count_step(g, step);
            if (!give_out(g, leaf, step[STEP_ACTION])) {
                return STOPPED;
            }
            offset = step[STEP_FIRST];
            break;
        case ACASE:
            count_step(g, step);
            offset = set_has((guard_set){be64(step + STEP_OPERAND)}, action)
                         ? step[STEP_FIRST]
                         : step[STEP_SECOND];
            break;
        case SPEND: /* 02, Req 01: "go to its yes target when the counter is at least n" */
            count_step(g, step);
            amount = be32(step + STEP_OPERAND + 4);
            offset = counter >= amount ? step[STEP_FIRST] : step[STEP_SECOND];
            counter -= counter >= amount ? amount : 0;
            break;
        case END: /* "end (ended, accepted)" */
            count_step(g, step);
            put_record(record, GUARD_ENDED, 0, 0);
            return ACCEPTED;
        default: /* HALT */
            count_step(g, step);
            put_record(record, GUARD_HALTED, 0, 0);
            return HALTS;
        }
    }
}

/* Takes a leaf from the next where it waits to one of its targets: "a next runs when
 * it is left". */
static inline enum outcome leave_next(struct run *g, unsigned leaf, unsigned target,
                                      uint8_t action)
{
    const uint8_t *next = step_at(g->p, leaf, record_at(g, leaf)[RECORD_OFFSET]);

    count_step(g, next);
    return run_leaf(g, leaf, next[target], action);
}

/* "Before: go from take"; "After: go on"; "Opening is an "after" phase from
 * offset 0 and the counter starts"; "Closing ... sends every running leaf to its
 * done target". */
static enum outcome leaf_phase(struct run *g, unsigned leaf, enum phase phase, uint8_t action)
{
    uint8_t *record = record_at(g, leaf);

    switch (phase) {
    case OPENING:
        put_record(record, GUARD_RUNNING, 0, be32(node_at(g->p, leaf) + NODE_START));
        return run_leaf(g, leaf, 0, action);
    case BEFORE:
        return leave_next(g, leaf, STEP_FIRST, action);
    case AFTER:
        return run_leaf(g, leaf, record[RECORD_OFFSET], action);
    default:
        return leave_next(g, leaf, STEP_SECOND, action);
    }
}

/* "Parallel. Both asked sides run the phase to its end, left first; then the
 * node's status is read. A node halted gives halt; otherwise suppressed if an
 * asked side suppressed." A side that halts alone in an "or" is passed over. */
static enum outcome parallel_phase(struct run *g, unsigned k, enum phase phase, uint8_t action)
{
    const uint8_t *node = node_at(g->p, k);
    enum outcome verdict = ACCEPTED;

    for (unsigned side = NODE_LEFT; side <= NODE_RIGHT; side++) {
        if (takes_part(g, node[side], phase, action)) {
            const enum outcome outcome = run_node(g, node[side], phase, action);
            if (outcome == STOPPED) {
                return STOPPED;
            }
            if (outcome == SUPPRESSED) {
                verdict = SUPPRESSED;
            }
        }
    }
    return read_status(g, k) == GUARD_HALTED ? HALTS : verdict;
}

/* "Sequential. Before: the left side runs if asked ... If the left suppressed a,
 * the verdict is suppressed; otherwise the right is asked. After: the right
 * first, if it was asked on a, then the left, if asked". "a sequential node opens
 * its right side first" and "closes its left side first". "Status is read after
 * each insert and each part; a decided node stops there: halted halts; ended
 * accepts a, unless the part that has just finished suppressed it, which then
 * stands." The reading after an insert is in feed. */
static enum outcome sequential_phase(struct run *g, unsigned k, enum phase phase, uint8_t action)
{
    const uint8_t *node = node_at(g->p, k);
    const bool left_first = phase == BEFORE || phase == CLOSING_DOWN;
    const unsigned parts[2] = {node[left_first ? NODE_LEFT : NODE_RIGHT],
                               node[left_first ? NODE_RIGHT : NODE_LEFT]};
    enum outcome verdict = ACCEPTED;

    for (unsigned i = 0; i < 2 && verdict == ACCEPTED; i++) {
        if (!takes_part(g, parts[i], phase, action)) {
            continue;
        }
        const enum outcome outcome = run_node(g, parts[i], phase, action);
        if (outcome == STOPPED && is_running(g, k)) {
            return STOPPED; /* decided was a node further up */
        }
        if (outcome == SUPPRESSED) {
            verdict = SUPPRESSED;
        }
        if (outcome != STOPPED) {
            read_status(g, k);
        }
        if (!is_running(g, k)) {
            return *record_at(g, k) == GUARD_HALTED ? HALTS : verdict;
        }
    }
    return verdict;
}

/* One phase of a node that takes part in it. */
static enum outcome run_node(struct run *g, unsigned k, enum phase phase, uint8_t action)
{
    const uint32_t bit = UINT32_C(1) << k;

    g->asked = phase == BEFORE ? g->asked | bit : g->asked & ~bit;
    switch (node_at(g->p, k)[0]) {
    case LEAF:
        return leaf_phase(g, k, phase, action);
    case TRIVIAL: /* opening only; it never runs */
        *record_at(g, k) = GUARD_ENDED;
        return ACCEPTED;
    case UNSATISFIABLE:
        *record_at(g, k) = GUARD_HALTED;
        return HALTS;
    case SEQUENTIAL_AND:
    case SEQUENTIAL_OR:
        return sequential_phase(g, k, phase, action);
    default:
        return parallel_phase(g, k, phase, action);
    }
}

/* "When a node is decided, all nodes beneath it become dropped. A leaf that isn't
 * running has offset and counter zero." Nothing beneath a decided node is looked
 * at again in a call, so one pass at its end, parents first, is enough. A node that
 * is to be dropped has been when it is met, so the pass counts the running leaves. */
static guard_answer settle(struct run *g)
{
    uint8_t running = 0;

    for (unsigned k = 0; k < g->p->n; k++) {
        const uint8_t *node = node_at(g->p, k);
        if (is_running(g, k)) {
            running += node[0] == LEAF;
        } else if (is_inner(node[0])) {
            put_record(record_at(g, node[NODE_LEFT]), GUARD_DROPPED, 0, 0);
            put_record(record_at(g, node[NODE_RIGHT]), GUARD_DROPPED, 0, 0);
        }
    }
    g->state[FRONT_COUNT] = running;
    return (guard_answer){.status = *record_at(g, 0), .events = g->count};
}

/* ------------------------------------------------------------------ */
/* What a call does once nothing can be refused any more. Its run is new, but for the
 * state.                                                               */

static inline guard_answer open_root(struct run *g)
{
    memset(g->state, 0, GUARD_STATE_BYTES);
    for (unsigned k = 0; k < g->p->n; k++) {
        *record_at(g, k) = GUARD_RUNNING; /* "not yet opened counts as running" */
    }
    (void)run_node(g, 0, OPENING, 0);
    return settle(g);
}

static inline guard_answer offer_to_root(struct run *g, uint8_t action)
{
    if (!is_asked(g, 0, action)) {
        /* "At the root, an action not regulated is accepted with no change. So is
         * any action once the root has ended." */
        put_event(g, GUARD_ACCEPTED, action);
        return (guard_answer){.status = *record_at(g, 0), .events = g->count};
    }
    const enum outcome verdict = run_node(g, 0, BEFORE, action);
    if (verdict != HALTS) { /* "a halt before the verdict has none" */
        put_event(g, verdict == SUPPRESSED ? GUARD_SUPPRESSED : GUARD_ACCEPTED, action);
        if (is_running(g, 0)) {
            (void)run_node(g, 0, AFTER, action);
        }
    }
    return settle(g);
}

static inline guard_answer close_root(struct run *g)
{
    if (!is_running(g, 0)) {
        /* "Closing a decided root emits nothing and answers its status." */
        return (guard_answer){.status = *record_at(g, 0)};
    }
    (void)run_node(g, 0, CLOSING_DOWN, 0);
    return settle(g);
}

/* ------------------------------------------------------------------ */
/* The entry points. "A refusal returns that number and zero events; state and
 * event buffers keep every byte."                                      */

/* "Every caller passes the place on unchanged." */
static guard_answer refuse(const struct policy *p, uint8_t refusal)
{
    return (guard_answer){.refusal = refusal, .place = place_of(p, refusal)};
}

/* Rules 1 to 11, and 12 unless the state is still to be made. */
static uint8_t admit(struct policy *p, const uint8_t *policy, size_t policy_length,
                     const uint8_t *state, size_t state_length, size_t events_length,
                     bool opened)
{
    guard_set effect;
    const uint8_t refusal = check_policy(p, policy, policy_length, &effect);

    if (refusal != 0) {
        return refusal;
    }
    if (state_length != GUARD_STATE_BYTES || events_length < GUARD_EVENT_BYTES) {
        return 11;
    }
    return opened && !state_fits(p, state) ? 12 : 0;
}

guard_sets guard_check(const uint8_t *policy, size_t policy_length)
{
    struct policy p;
    guard_set effect;
    const uint8_t refusal = check_policy(&p, policy, policy_length, &effect);

    if (refusal != 0) {
        return (guard_sets){.refusal = refusal, .place = place_of(&p, refusal)};
    }
    return (guard_sets){.regulated = p.regulated[0], .effect = effect};
}

guard_answer guard_open(const uint8_t *policy, size_t policy_length,
                        uint8_t *state, size_t state_length,
                        uint8_t *events, size_t events_length)
{
    struct policy p;
    const uint8_t refusal =
        admit(&p, policy, policy_length, state, state_length, events_length, false);

    if (refusal != 0) {
        return refuse(&p, refusal);
    }
    struct run g = {&p, state, events, 0, 0, NULL};
    return open_root(&g);
}

guard_answer guard_offer(const uint8_t *policy, size_t policy_length,
                         uint8_t *state, size_t state_length,
                         uint8_t *events, size_t events_length, uint8_t action)
{
    struct policy p;
    const uint8_t refusal =
        admit(&p, policy, policy_length, state, state_length, events_length, true);

    if (refusal != 0) {
        return refuse(&p, refusal);
    }
    if (action > MAX_ACTION) {
        return refuse(&p, 13);
    }
    if (*saved_record(state, 0) == GUARD_HALTED) {
        return refuse(&p, 14); /* "the root has halted" */
    }
    struct run g = {&p, state, events, 0, 0, NULL};
    return offer_to_root(&g, action);
}

guard_answer guard_close(const uint8_t *policy, size_t policy_length,
                         uint8_t *state, size_t state_length,
                         uint8_t *events, size_t events_length)
{
    struct policy p;
    const uint8_t refusal =
        admit(&p, policy, policy_length, state, state_length, events_length, true);

    if (refusal != 0) {
        return refuse(&p, refusal);
    }
    struct run g = {&p, state, events, 0, 0, NULL};
    return close_root(&g);
}

/* 02, Req 04: "The panel asks after every command". There is no policy to hold the
 * state against, so only its length can be wrong. */
guard_count guard_running_leaves(const uint8_t *state, size_t state_length)
{
    if (state_length != GUARD_STATE_BYTES) {
        return (guard_count){.refusal = 11};
    }
    return (guard_count){.leaves = state[FRONT_COUNT]};
}

/* ------------------------------------------------------------------ */
/* 02, Req 05: "Run a policy over last week's command trace." The policy is checked
 * once: its bytes stay as they are, and every state after the first is one that a
 * call has left, so that no later call could be refused 1 to 12.       */

struct tracing {
    struct run g;        /* its events: where the last call's ended */
    size_t left;         /* event bytes from there on */
    guard_traced so_far; /* the answer if the run stopped here */
};

/* "15, tried last, ... when under 512 event bytes are left before a call" */
static bool has_room(const struct tracing *t)
{
    return t->left >= GUARD_EVENT_BYTES;
}

/* "for each action how often it was accepted, suppressed or inserted": counted by its
 * events, so that an insert that a right side has taken away doesn't count. */
static void count_event(guard_tally *tally, const uint8_t *event)
{
    uint32_t *const counts[] = {
        [GUARD_ACCEPTED] = tally->accepted,
        [GUARD_SUPPRESSED] = tally->suppressed,
        [GUARD_INSERTED] = tally->inserted,
    };

    count_up(&counts[event[0]][event[1]]);
}

/* A call is over; the next one's events go to "the part that begins where the last
 * ended". */
static void go_on(struct tracing *t, guard_answer answer)
{
    for (unsigned i = 0; i < answer.events; i++) {
        count_event(t->g.tally, t->g.events + 2u * i);
    }
    t->g.events += 2u * answer.events;
    t->g.count = 0;
    t->g.asked = 0;
    t->left -= 2u * answer.events;
    t->so_far.events += answer.events;
    t->so_far.status = answer.status;
}

/* The trace's actions and closing. "The run stops at the first refusal or when the
 * root halts". Answers the refusal, or 0. */
static uint8_t run_trace(struct tracing *t, const uint8_t *trace, size_t trace_length)
{
    for (size_t i = 0; i < trace_length && t->so_far.status != GUARD_HALTED; i++) {
        if (trace[i] > MAX_ACTION) {
            return 13;
        }
        if (!has_room(t)) {
            return 15;
        }
        go_on(t, offer_to_root(&t->g, trace[i]));
        t->so_far.judged++; /* "a halting one too" */
    }
    if (t->so_far.status == GUARD_HALTED) {
        return 0;
    }
    if (!has_room(t)) {
        return 15;
    }
    go_on(t, close_root(&t->g));
    return 0;
}

guard_traced guard_trace(const uint8_t *policy, size_t policy_length,
                         const uint8_t *trace, size_t trace_length,
                         uint8_t *state, size_t state_length,
                         uint8_t *events, size_t events_length, guard_tally *tally)
{
    struct policy p;
    guard_set effect;
    struct tracing t = {.g = {&p, state, events, 0, 0, tally}, .left = events_length};
    uint8_t refusal = check_policy(&p, policy, policy_length, &effect);

    if (refusal == 0 && state_length != GUARD_STATE_BYTES) {
        refusal = 11;
    }
    if (refusal == 0 && !has_room(&t)) {
        refusal = 15;
    }
    if (refusal != 0) {
        return (guard_traced){.refusal = refusal, .place = place_of(&p, refusal)};
    }
    t.so_far.opened = true;
    go_on(&t, open_root(&t.g));
    t.so_far.refusal = run_trace(&t, trace, trace_length);
    return t.so_far;
}

/* ------------------------------------------------------------------ */
/* 02, Req 02: "produce the file with version, counts and length".      */

/* Rule 3 of the file that would be written, "3 for a broken record too". The
 * records are looked at where the caller keeps them. */
static uint8_t lend_records(struct policy *p, const uint8_t *nodes, size_t nodes_length,
                            const uint8_t *steps, size_t steps_length)
{
    const size_t n = nodes_length / NODE_BYTES;
    const size_t m = steps_length / STEP_BYTES;

    if (nodes_length % NODE_BYTES != 0 || steps_length % STEP_BYTES != 0 || !in_range(n, m)) {
        return 3;
    }
    p->nodes = nodes;
    p->steps = steps;
    p->n = (unsigned)n;
    p->m = (unsigned)m;
    return 0;
}

static void put_file(uint8_t *out, const struct policy *p)
{
    const size_t length = file_length(p);
    const size_t steps_at = HEADER_BYTES + (size_t)NODE_BYTES * p->n;

    out[0] = (uint8_t)(length >> 8);
    out[1] = (uint8_t)length;
    out[2] = VERSION;
    out[3] = (uint8_t)p->n;
    out[4] = (uint8_t)(p->m >> 8);
    out[5] = (uint8_t)p->m;
    memcpy(out + HEADER_BYTES, p->nodes, steps_at - HEADER_BYTES);
    if (p->m > 0) { /* with no steps their buffer may be a null pointer */
        memcpy(out + steps_at, p->steps, length - steps_at);
    }
}

guard_written guard_write(const uint8_t *nodes, size_t nodes_length,
                          const uint8_t *steps, size_t steps_length,
                          uint8_t *out, size_t out_length)
{
    struct policy p;
    guard_set effect;
    uint8_t refusal = lend_records(&p, nodes, nodes_length, steps, steps_length);

    if (refusal == 0) {
        refusal = check_records(&p, &effect);
    }
    if (refusal == 0 && out_length < file_length(&p)) {
        refusal = 15; /* "when the lent output is shorter than the file, tried last" */
    }
    if (refusal != 0) {
        return (guard_written){.refusal = refusal, .place = place_of(&p, refusal)};
    }
    put_file(out, &p);
    return (guard_written){.length = (uint16_t)file_length(&p)};
}
