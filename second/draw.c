/* draw.c: "draw SEED COUNT" writes a batch of COUNT guard calls from a fixed-seed generator. */
#include "field.h"
#include "guard.h"

#include <stdlib.h>

/* ------------------------------------------------------------------ */
/* Chance: xorshift64*.                                                 */

static uint64_t seed_word;

static uint64_t draw64(void)
{
    seed_word ^= seed_word >> 12;
    seed_word ^= seed_word << 25;
    seed_word ^= seed_word >> 27;
    return seed_word * UINT64_C(0x2545F4914F6CDD1D);
}

static unsigned below(unsigned bound) /* 0 to bound - 1 */
{
    return (unsigned)((draw64() >> 32) * bound >> 32);
}

static unsigned between(unsigned low, unsigned high)
{
    return low + below(high - low + 1);
}

static bool chance(unsigned percent)
{
    return below(100) < percent;
}

static unsigned pick_weighted(const unsigned *weights, unsigned count)
{
    unsigned total = 0;

    for (unsigned i = 0; i < count; i++) {
        total += weights[i];
    }
    unsigned at = below(total);
    for (unsigned i = 0; i < count; i++) {
        if (at < weights[i]) {
            return i;
        }
        at -= weights[i];
    }
    return count - 1;
}

/* One of the bytes from..to becomes something from low to high. Wherever two
 * draws meet, their order is fixed, so that every compiler draws alike. */
static void spoil(uint8_t *bytes, unsigned from, unsigned to, unsigned low, unsigned high)
{
    const unsigned place = between(from, to);

    bytes[place] = (uint8_t)between(low, high);
}

/* ------------------------------------------------------------------ */
/* Sets as plain words.                                                 */

static unsigned set_size(uint64_t set)
{
    unsigned size = 0;

    for (; set != 0; set &= set - 1) {
        size++;
    }
    return size;
}

/* A member of a set that isn't empty. */
static uint8_t member(uint64_t set)
{
    unsigned skip = below(set_size(set));

    for (unsigned a = 0; a < 64; a++) {
        if ((set >> a & 1) != 0 && skip-- == 0) {
            return (uint8_t)a;
        }
    }
    return 0;
}

/* Each member with the given chance. */
static uint64_t thin(uint64_t set, unsigned percent)
{
    uint64_t kept = 0;

    for (unsigned a = 0; a < 64; a++) {
        if ((set >> a & 1) != 0 && chance(percent)) {
            kept |= UINT64_C(1) << a;
        }
    }
    return kept;
}

/* ------------------------------------------------------------------ */
/* Policies as records in memory.                                       */

enum { NEXT = 1, OK, SUP, INS, ACASE, SPEND, END, HALT };
enum { LEAF = 1, TRIVIAL, UNSATISFIABLE, PAR_AND, SEQ_AND, PAR_OR, SEQ_OR };
enum { IDLE = 0, PENDING = 1, CLOSING = 2 };
enum { MAX_N = 31, MAX_M = 512, ROOM = 8192 };

struct step {
    uint8_t kind, action, to[2];
    uint64_t operand;
};

struct node {
    uint8_t kind, left, right, count;
    uint32_t start;
    uint64_t set;
    struct step steps[64];
};

struct policy {
    unsigned n;
    struct node nodes[MAX_N];
};

struct file {
    size_t length;
    uint8_t bytes[ROOM];
};

static void put(uint8_t *at, uint64_t number, unsigned bytes)
{
    for (unsigned i = 0; i < bytes; i++) {
        at[i] = (uint8_t)(number >> 8 * (bytes - 1 - i));
    }
}

static uint64_t get(const uint8_t *at, unsigned bytes)
{
    uint64_t number = 0;

    for (unsigned i = 0; i < bytes; i++) {
        number = number << 8 | at[i];
    }
    return number;
}

static void write_step(uint8_t *at, const struct step *s)
{
    at[0] = s->kind;
    at[1] = s->action;
    at[2] = s->to[0];
    at[3] = s->to[1];
    put(at + 4, s->operand, 8);
}

static void write_node(uint8_t *at, const struct node *node)
{
    at[0] = node->kind;
    at[1] = node->left;
    at[2] = node->right;
    at[3] = node->count;
    put(at + 4, node->start, 4);
    put(at + 8, node->set, 8);
}

static void write_file(struct file *f, const struct policy *p)
{
    uint8_t *at = f->bytes + 6;
    unsigned m = 0;

    for (unsigned k = 0; k < p->n; k++, at += 16) {
        write_node(at, &p->nodes[k]);
        m += p->nodes[k].count;
    }
    for (unsigned k = 0; k < p->n; k++) {
        for (unsigned s = 0; s < p->nodes[k].count; s++, at += 12) {
            write_step(at, &p->nodes[k].steps[s]);
        }
    }
    f->length = (size_t)(at - f->bytes);
    put(f->bytes, f->length, 2);
    f->bytes[2] = 1;
    f->bytes[3] = (uint8_t)p->n;
    put(f->bytes + 4, m, 2);
}

/* ------------------------------------------------------------------ */
/* Leaves, mode-correct by construction: steps are laid down in order of
 * offset; an edge is a target field not yet filled, with its mode and
 * its possible actions.                                                */

struct temper { /* chances of one policy, in weights */
    unsigned next, ins, spend, acase, ok, sup, end, halt, join, back;
    unsigned pending_end, pending_halt, closing_end;
    uint64_t alphabet;
};

struct edge {
    uint8_t from, slot, mode;
    uint64_t possible;
};

struct growth {
    struct node *leaf;
    const struct temper *t;
    uint64_t effects; /* actions the leaf may insert or suppress */
    unsigned inserts; /* ins steps it may still have */
    struct edge edges[160];
    unsigned open;
    uint8_t nexts[64];
    unsigned next_count;
};

static void fill(struct growth *g, const struct edge *e, unsigned target)
{
    if (e->from != 0xFF) {
        g->leaf->steps[e->from].to[e->slot] = (uint8_t)target;
    }
}

static void add_edge(struct growth *g, unsigned from, unsigned slot, unsigned mode,
                     uint64_t possible)
{
    const struct edge e = {(uint8_t)from, (uint8_t)slot, (uint8_t)mode, possible};

    if (mode == IDLE && g->next_count > 0 && chance(g->t->back)) {
        fill(g, &e, g->nexts[below(g->next_count)]);
    } else {
        g->edges[g->open++] = e;
    }
}

static unsigned open_modes(const struct growth *g)
{
    unsigned modes = 0;

    for (unsigned i = 0; i < g->open; i++) {
        modes |= 1u << g->edges[i].mode;
    }
    return modes;
}

/* Leads open edges of a mode to an offset: one chosen, the others by chance or
 * all. Answers their possible actions together. */
static uint64_t attach(struct growth *g, unsigned chosen, unsigned target, bool all)
{
    const unsigned mode = g->edges[chosen].mode;
    uint64_t possible = 0;
    unsigned kept = 0;

    for (unsigned i = 0; i < g->open; i++) {
        const struct edge e = g->edges[i];
        if (e.mode == mode && (i == chosen || all || chance(g->t->join))) {
            fill(g, &e, target);
            possible |= e.possible;
        } else {
            g->edges[kept++] = e;
        }
    }
    g->open = kept;
    return possible;
}

static unsigned count_modes(unsigned modes)
{
    return (modes & 1) + (modes >> 1 & 1) + (modes >> 2 & 1);
}

/* A kind that may stand in the mode and leaves room to lead all edges on. */
static unsigned choose_kind(const struct growth *g, unsigned mode, uint64_t possible,
                            unsigned left)
{
    const struct temper *t = g->t;
    const unsigned open = open_modes(g);
    const bool next_fits = count_modes(open | 1u << PENDING | 1u << CLOSING) <= left;
    const bool idle_fits = count_modes(open | 1u << IDLE) <= left;
    const bool same_fits = count_modes(open | 1u << mode) <= left;
    const bool pending = mode == PENDING;
    const bool inserts = same_fits && g->inserts > 0 && g->effects != 0;
    const unsigned weights[9] = {
        [NEXT] = mode == IDLE && next_fits ? t->next : 0,
        [OK] = pending && idle_fits ? t->ok : 0,
        [SUP] = pending && idle_fits && (possible & ~g->effects) == 0 ? t->sup : 0,
        [INS] = inserts ? t->ins : 0,
        [ACASE] = pending && same_fits && set_size(possible) > 1 ? t->acase : 0,
        [SPEND] = same_fits ? t->spend : 0,
        [END] = pending ? t->pending_end : mode == CLOSING ? t->closing_end : t->end,
        [HALT] = pending ? t->pending_halt : t->halt,
    };

    return pick_weighted(weights, 9);
}

static uint64_t draw_amount(uint32_t start)
{
    switch (below(7)) {
    case 0:
        return 0;
    case 1:
        return start;
    case 2:
        return start == 0 ? 0 : start - 1;
    case 3:
        return start == UINT32_MAX ? start : start + 1;
    case 4:
        return draw64() >> 32;
    default:
        return between(1, 3);
    }
}

static void lay_step(struct growth *g, unsigned at, unsigned kind, unsigned mode,
                     uint64_t possible)
{
    struct step *s = &g->leaf->steps[at];
    uint64_t yes;

    *s = (struct step){.kind = (uint8_t)kind};
    switch (kind) {
    case NEXT:
        g->nexts[g->next_count++] = (uint8_t)at;
        add_edge(g, at, 0, PENDING, g->leaf->set);
        add_edge(g, at, 1, CLOSING, 0);
        break;
    case OK:
    case SUP:
        add_edge(g, at, 0, IDLE, 0);
        break;
    case INS:
        s->action = member(g->effects);
        g->inserts--;
        add_edge(g, at, 0, mode, possible);
        break;
    case ACASE:
        do {
            yes = thin(possible, 50);
        } while (yes == 0 || yes == possible);
        s->operand = yes | thin(g->leaf->set & ~possible, 50);
        add_edge(g, at, 0, PENDING, yes);
        add_edge(g, at, 1, PENDING, possible & ~yes);
        break;
    case SPEND:
        s->operand = draw_amount(g->leaf->start);
        add_edge(g, at, 0, mode, possible);
        add_edge(g, at, 1, mode, possible);
        break;
    default:
        break;
    }
}

static uint32_t draw_start(void)
{
    switch (below(8)) {
    case 0:
        return 0;
    case 1:
        return UINT32_MAX;
    case 2:
        return (uint32_t)(draw64() >> 32);
    default:
        return between(1, 9);
    }
}

/* Open edges to a next all lead back, when there is one. */
static void lead_back(struct growth *g)
{
    unsigned kept = 0;

    for (unsigned i = 0; i < g->open; i++) {
        if (g->edges[i].mode == IDLE && g->next_count > 0) {
            fill(g, &g->edges[i], g->nexts[below(g->next_count)]);
        } else {
            g->edges[kept++] = g->edges[i];
        }
    }
    g->open = kept;
}

static void grow_leaf(struct node *leaf, const struct temper *t, uint64_t may_regulate,
                      uint64_t effects, unsigned inserts, unsigned size)
{
    struct growth g = {.leaf = leaf, .t = t, .effects = effects, .inserts = inserts};
    unsigned at = 0;

    leaf->kind = LEAF;
    leaf->left = leaf->right = 0;
    leaf->start = draw_start();
    leaf->set = thin(may_regulate, chance(30) ? 100 : 55);
    if (leaf->set == 0) {
        leaf->set = UINT64_C(1) << member(may_regulate);
    }
    g.edges[g.open++] = (struct edge){0xFF, 0, IDLE, 0};
    while (at < size) {
        const unsigned left = size - at - 1; /* after this one */
        const bool tight = count_modes(open_modes(&g)) > left;
        const bool room = count_modes(open_modes(&g) | 6u) <= left;
        if (g.open == 0 || (at > 0 && room && chance(2))) {
            if (!room) {
                break;
            }
            lay_step(&g, at++, NEXT, IDLE, 0); /* a next that nothing leads to */
            continue;
        }
        if (tight && at > 0) {
            lead_back(&g);
            if (g.open == 0) {
                continue;
            }
        }
        const unsigned chosen = at == 0 ? 0 : below(g.open);
        const unsigned mode = g.edges[chosen].mode;
        const uint64_t possible = attach(&g, chosen, at, tight);
        unsigned kind = choose_kind(&g, mode, possible, left);
        if (at == 0 && left >= 2 && chance(70)) {
            kind = NEXT;
        }
        lay_step(&g, at++, kind, mode, possible);
    }
    leaf->count = (uint8_t)at;
}

/* ------------------------------------------------------------------ */
/* Trees.                                                               */

struct need { /* what a node must keep to, so that rules 9 and 10 hold */
    uint64_t regulate, effects;
    unsigned spread;
    uint8_t parent_kind;
};

/* Shape: 0 leaning left, 1 leaning right, 2 balanced, 3 by chance. Nodes are
 * made in order, so a child's number is greater. */
static void grow_shape(struct policy *p, unsigned inner, unsigned shape)
{
    uint8_t slots[MAX_N];
    unsigned count = 1, first = 0;

    slots[0] = 0;
    p->n = 1;
    memset(p->nodes, 0, sizeof p->nodes);
    for (unsigned i = 0; i < inner; i++) {
        unsigned at = first;
        if (shape == 0 || shape == 1) {
            at = count - 1;
        } else if (shape == 3) {
            at = between(first, count - 1);
        }
        const uint8_t k = slots[at];
        slots[at] = slots[first++];
        const bool turned = chance(50);
        const uint8_t left = (uint8_t)(p->n + (turned ? 1 : 0));
        const uint8_t right = (uint8_t)(p->n + (turned ? 0 : 1));
        p->n += 2;
        p->nodes[k].kind = (uint8_t)between(PAR_AND, SEQ_OR);
        p->nodes[k].left = left;
        p->nodes[k].right = right;
        if (shape == 0) { /* the last slot is the one to go on from */
            slots[count++] = right;
            slots[count++] = left;
        } else {
            slots[count++] = left;
            slots[count++] = right;
        }
    }
}

/* Parallel sides share out the actions: an action with an effect on one side
 * isn't regulated by the other. */
static void share_parallel(const struct need *need, struct need *left, struct need *right)
{
    *left = *right = *need;
    for (unsigned a = 0; a < 64; a++) {
        const uint64_t bit = UINT64_C(1) << a;
        switch (below(5)) {
        case 0: /* regulated by both, effects of neither */
            left->effects &= ~bit;
            right->effects &= ~bit;
            break;
        case 1: /* effects of both, regulated by neither */
            left->regulate &= ~bit;
            right->regulate &= ~bit;
            break;
        case 2:
            left->regulate &= ~bit;
            left->effects &= ~bit;
            break;
        case 3:
            right->regulate &= ~bit;
            right->effects &= ~bit;
            break;
        default:
            if (chance(50)) {
                left->effects &= ~bit;
                right->regulate &= ~bit;
            } else {
                right->effects &= ~bit;
                left->regulate &= ~bit;
            }
            break;
        }
    }
    left->spread = below(need->spread + 1);
    right->spread = need->spread - left->spread;
}

static void share_sequential(const struct need *need, struct need *left, struct need *right)
{
    unsigned factor = between(1, need->spread + 1);

    *left = *right = *need;
    if (chance(60)) { /* near the root of it, so that both have some */
        factor = 1;
        while ((factor + 1) * (factor + 1) <= need->spread + 1) {
            factor++;
        }
    }
    left->spread = factor - 1;
    right->spread = (need->spread + 1) / factor - 1;
}

/* A node without sides: mostly a leaf; trivial and unsatisfiable mostly where
 * they decide nothing. */
static void grow_end(struct policy *p, unsigned k, const struct need *need,
                     const struct temper *t, unsigned size)
{
    struct node *node = &p->nodes[k];
    const bool under_and = need->parent_kind == PAR_AND || need->parent_kind == SEQ_AND;

    if (need->regulate == 0 || chance(6)) {
        const bool trivial = chance(90) ? under_and : !under_and;
        *node = (struct node){.kind = trivial ? TRIVIAL : UNSATISFIABLE};
        return;
    }
    for (unsigned tries = 0; tries < 20 && node->count != size; tries++) {
        grow_leaf(node, t, need->regulate, need->effects, need->spread, size);
    }
}

static unsigned draw_size(unsigned most)
{
    unsigned size = chance(75) ? between(3, 12) : between(1, 64);

    return size > most ? most : size;
}

static void grow_tree(struct policy *p, const struct temper *t, unsigned spread, bool large)
{
    struct need needs[MAX_N];
    unsigned ends = (p->n + 1) / 2;
    unsigned steps = MAX_M;

    needs[0] = (struct need){t->alphabet, t->alphabet, spread, 0};
    for (unsigned k = 0; k < p->n; k++) {
        struct node *node = &p->nodes[k];
        if (node->kind >= PAR_AND) {
            struct need *left = &needs[node->left];
            struct need *right = &needs[node->right];
            if (node->kind == SEQ_AND || node->kind == SEQ_OR) {
                share_sequential(&needs[k], left, right);
            } else {
                share_parallel(&needs[k], left, right);
            }
            left->parent_kind = right->parent_kind = node->kind;
            continue;
        }
        const unsigned most = steps - (ends - 1); /* one at least for each later end */
        const unsigned cap = most > 64 ? 64 : most;
        const unsigned even = steps / ends;
        grow_end(p, k, &needs[k], t, large ? (even > 64 ? 64 : even) : draw_size(cap));
        steps -= node->count;
        ends--;
    }
}

static void draw_temper(struct temper *t)
{
    const unsigned width = between(2, 7);

    *t = (struct temper){.next = 60, .ins = 25, .spend = 8, .acase = 25, .ok = 20,
                         .sup = 15, .end = 3, .halt = 2, .join = 25, .back = 60,
                         .pending_end = 3, .pending_halt = 3, .closing_end = 25};
    t->alphabet = 0;
    for (unsigned i = 0; i < width; i++) {
        t->alphabet |= UINT64_C(1) << (chance(85) ? below(9) : below(64));
    }
    if (chance(4)) {
        t->alphabet = draw64() | UINT64_C(1) << 63;
    }
    switch (below(7)) {
    case 0:
        t->end = 9;
        t->halt = 8;
        break;
    case 1:
        t->end = t->halt = t->pending_end = t->pending_halt = 1;
        break;
    case 3:
        t->pending_end = 20;
        t->pending_halt = 20;
        break;
    case 2:
        t->ins = 80;
        break;
    default:
        break;
    }
}

/* A leaf of the plainest kind: a number of inserts of one action before or after
 * the verdict. */
static void plain_leaf(struct node *leaf, uint64_t set, unsigned width, unsigned action)
{
    const unsigned verdict = chance(30) ? 1 : width + 1;
    const bool pure = chance(60);

    leaf->kind = LEAF;
    leaf->start = draw_start();
    leaf->set = set;
    leaf->count = (uint8_t)(width + 3);
    leaf->steps[0] = (struct step){NEXT, 0, {1, (uint8_t)(width + 2)}, 0};
    for (unsigned s = 1; s <= width + 1; s++) {
        const uint8_t to = s == width + 1 ? 0 : (uint8_t)(s + 1);
        const uint8_t inserted = (uint8_t)(pure || chance(95) ? action : below(8));
        leaf->steps[s] = (struct step){INS, inserted, {to, 0}, 0};
    }
    leaf->steps[verdict].kind = pure || chance(80) ? OK : SUP;
    leaf->steps[verdict].action = 0;
    if (verdict == width + 1 && chance(12)) {
        leaf->steps[verdict] = (struct step){chance(50) ? END : HALT, 0, {0, 0}, 0};
    }
    leaf->steps[width + 2] = (struct step){chance(90) ? END : HALT, 0, {0, 0}, 0};
}

/* A chain of sequential nodes, leaning left, whose every insert is regulated by
 * the next leaf: as many events as the spread allows. */
static void grow_storm(struct policy *p)
{
    static const uint8_t WIDTHS[][4] = {
        {15, 15, 0, 0}, {3, 3, 15, 0}, {1, 1, 7, 7}, {7, 31, 0, 0}, {61, 3, 0, 0}, {2, 4, 5, 0},
        {15, 16, 0, 0}, {3, 3, 3, 3},  {4, 4, 9, 0}, {7, 32, 0, 0}, {1, 3, 5, 5},  {3, 3, 16, 0}};
    const uint8_t *widths = WIDTHS[below(12)];
    const unsigned leaves = widths[2] == 0 ? 2 : widths[3] == 0 ? 3 : 4;
    uint8_t order[4], spine[4];
    unsigned depth = 0, count = 0, k = 0;

    grow_shape(p, leaves - 1, 0);
    while (p->nodes[k].kind >= PAR_AND) {
        p->nodes[k].kind = chance(50) ? SEQ_AND : SEQ_OR;
        spine[depth++] = (uint8_t)k;
        k = p->nodes[k].left;
    }
    order[count++] = (uint8_t)k; /* leaves from left to right */
    while (depth > 0) {
        order[count++] = p->nodes[spine[--depth]].right;
    }
    for (unsigned i = 0; i < count; i++) {
        const uint64_t set = UINT64_C(1) << (i + 1) | (i == 0 || chance(60) ? 1 : 0);
        plain_leaf(&p->nodes[order[i]], set, widths[i], i + 2);
    }
}

/* Five leaves side by side whose inserts add up to about 255. */
static void grow_sum(struct policy *p)
{
    unsigned made = 0;

    grow_shape(p, 4, below(4));
    for (unsigned k = 0; k < p->n; k++) {
        struct node *node = &p->nodes[k];
        if (node->kind >= PAR_AND) {
            node->kind = chance(50) ? PAR_AND : PAR_OR;
        } else {
            plain_leaf(node, 1u | UINT64_C(1) << (10 + made), 51, 20 + made);
            made++;
        }
    }
    if (chance(50)) {
        unsigned k = 0;
        while (p->nodes[k].kind != LEAF) {
            k++;
        }
        plain_leaf(&p->nodes[k], 1, chance(50) ? 52 : 50, 30);
    }
}

/* Mostly sequential nodes over two or three actions, and leaves that insert much
 * and are at times decided by what they are given. */
static void lean_to_feeding(struct policy *p, struct temper *t)
{
    t->alphabet = UINT64_C(1) << below(6) | UINT64_C(1) << below(6);
    t->alphabet |= chance(50) ? UINT64_C(1) << below(6) : 0;
    t->ins = 110;
    t->acase = 15;
    t->spend = 4;
    t->pending_end = between(3, 30);
    t->pending_halt = between(3, 30);
    for (unsigned k = 0; k < p->n; k++) {
        if (p->nodes[k].kind >= PAR_AND && chance(70)) {
            p->nodes[k].kind = chance(50) ? SEQ_AND : SEQ_OR;
        }
    }
}

/* A policy by the general way; spread above 255 gives one that rule 10 may
 * refuse. */
static void grow_policy(struct policy *p, unsigned spread)
{
    static const unsigned SIZES[16] = {14, 24, 14, 9, 7, 5, 4, 3, 2, 2, 2, 1, 1, 1, 1, 3};
    const bool wide = spread > 255;
    struct temper t;

    draw_temper(&t);
    if (wide) {
        t.ins = 400;
    }
    const unsigned shape = below(4);
    grow_shape(p, wide ? between(1, 5) : pick_weighted(SIZES, 16), shape);
    if (!wide && chance(60)) {
        lean_to_feeding(p, &t);
    }
    grow_tree(p, &t, spread, wide || chance(p->n > 14 ? 25 : 3));
}

/* ------------------------------------------------------------------ */
/* The calls.                                                           */

static unsigned long calls_left;

struct session {
    struct policy policy;
    struct file file;
    guard_sets sets;
    uint8_t state[GUARD_STATE_BYTES + 64];
    size_t state_length;
    uint8_t events[2048];
    size_t events_length;
};

static void pattern(uint8_t *bytes, size_t length)
{
    const uint8_t start = (uint8_t)below(256);

    for (size_t i = 0; i < length; i++) {
        bytes[i] = (uint8_t)(start + 37 * i + (i >> 3));
    }
}

static void write_field(const uint8_t *bytes, size_t length)
{
    putchar((int)(length >> 8));
    putchar((int)(length & 0xFF));
    fwrite(bytes, 1, length, stdout);
}

/* Writes one call and makes it, so that s holds what the guard left. */
static guard_answer call(struct session *s, unsigned entry, uint8_t action)
{
    const size_t state_length = entry == CHECK ? 0 : s->state_length;
    const size_t events_length = entry == CHECK ? 0 : s->events_length;
    guard_answer answer = {0};

    if (calls_left == 0) {
        return answer;
    }
    if (s->file.length > ROOM) {
        fputs("draw: a file has outgrown its room\n", stderr);
        exit(1);
    }
    calls_left--;
    pattern(s->events, sizeof s->events);
    putchar((int)entry);
    write_field(s->file.bytes, s->file.length);
    write_field(s->state, state_length);
    write_field(s->events, events_length);
    putchar(action);
    switch (entry) {
    case OPEN:
        answer = guard_open(s->file.bytes, s->file.length, s->state, state_length,
                            s->events, events_length);
        break;
    case OFFER:
        answer = guard_offer(s->file.bytes, s->file.length, s->state, state_length,
                             s->events, events_length, action);
        break;
    case CLOSE:
        answer = guard_close(s->file.bytes, s->file.length, s->state, state_length,
                             s->events, events_length);
        break;
    default:
        answer.refusal = guard_check(s->file.bytes, s->file.length).refusal;
        break;
    }
    return answer;
}

static void right_buffers(struct session *s)
{
    static const unsigned LENGTHS[] = {513, 514, 600, 1024, 2048};

    s->state_length = GUARD_STATE_BYTES;
    s->events_length = chance(90) ? GUARD_EVENT_BYTES : LENGTHS[below(5)];
}

static void wrong_buffers(struct session *s)
{
    static const unsigned STATES[] = {255, 257, 0, 1, 8, 248, 249, 264};
    static const unsigned EVENTS[] = {511, 510, 0, 1, 256};
    const unsigned which = between(1, 3);

    if ((which & 1) != 0) {
        s->state_length = STATES[below(8)];
    }
    if ((which & 2) != 0) {
        s->events_length = EVENTS[below(5)];
    }
}

static uint8_t draw_action(const struct session *s)
{
    const uint64_t set = s->sets.regulated.bits;

    if (set != 0 && chance(82)) {
        return member(set);
    }
    if (chance(8)) {
        return (uint8_t)between(64, 255);
    }
    return (uint8_t)(chance(50) ? below(10) : below(64));
}

static guard_answer call_with_action(struct session *s, unsigned entry)
{
    const uint8_t action = draw_action(s);

    return call(s, entry, action);
}

/* A policy that passes. */
static void draw_passing(struct session *s)
{
    do {
        if (chance(5)) {
            grow_storm(&s->policy);
        } else if (chance(1)) {
            grow_sum(&s->policy);
        } else {
            grow_policy(&s->policy, chance(80) ? 255 : below(256));
        }
        write_file(&s->file, &s->policy);
        s->sets = guard_check(s->file.bytes, s->file.length);
    } while (s->sets.refusal != 0);
}

/* A policy that passes; mostly one that opens running. */
static void draw_good(struct session *s)
{
    const bool alive = chance(90);
    uint8_t scratch[GUARD_EVENT_BYTES];
    guard_answer answer;
    unsigned tries = 0;

    do {
        draw_passing(s);
        answer = guard_open(s->file.bytes, s->file.length, s->state, GUARD_STATE_BYTES, scratch,
                            sizeof scratch);
    } while (alive && answer.status != GUARD_RUNNING && tries++ < 30);
}

/* ------------------------------------------------------------------ */
/* States.                                                              */

static uint8_t *record(struct session *s, unsigned k)
{
    return s->state + 8 + 8u * k;
}

/* How many nodes have a kind from 1 to one and a status from 1 to another. */
static unsigned count_nodes(struct session *s, unsigned last_kind, unsigned last_status)
{
    unsigned count = 0;

    for (unsigned k = 0; k < s->policy.n; k++) {
        const unsigned status = record(s, k)[0];
        count += s->policy.nodes[k].kind <= last_kind && status >= 1 && status <= last_status;
    }
    return count;
}

/* 02, Req 04: "the count of running leaves", of the records as they are. */
static void put_front(struct session *s)
{
    put(s->state, count_nodes(s, LEAF, 1), 8);
}

static bool has_next(const struct node *leaf)
{
    for (unsigned i = 0; i < leaf->count; i++) {
        if (leaf->steps[i].kind == NEXT) {
            return true;
        }
    }
    return false;
}

static bool side_pair_runs(unsigned kind, unsigned left, unsigned right)
{
    const bool left_ended = left >= 2 && left <= 4;
    const bool right_ended = right >= 2 && right <= 4;

    if (kind == PAR_AND || kind == SEQ_AND) {
        return left != 5 && right != 5 && !(left_ended && right_ended);
    }
    return !left_ended && !right_ended && !(left == 5 && right == 5);
}

/* The statuses a node can hold in some fitting state, bit by status. */
static unsigned can_hold(const struct policy *p, unsigned k, const unsigned *can)
{
    const struct node *node = &p->nodes[k];

    switch (node->kind) {
    case LEAF:
        return (has_next(node) ? 1u << 1 : 0) | 1u << 2 | 1u << 5;
    case TRIVIAL:
        return 1u << 2;
    case UNSATISFIABLE:
        return 1u << 5;
    default:
        break;
    }
    unsigned held = node->kind == PAR_AND || node->kind == SEQ_AND
                        ? 1u << 2 | 1u << 5
                        : 1u << 3 | 1u << 4 | 1u << 5;
    for (unsigned l = 1; l <= 5; l++) {
        for (unsigned r = 1; r <= 5; r++) {
            if ((can[node->left] >> l & 1) != 0 && (can[node->right] >> r & 1) != 0 &&
                side_pair_runs(node->kind, l, r)) {
                held |= 1u << 1;
            }
        }
    }
    return held;
}

static unsigned draw_status(unsigned can, unsigned run_percent)
{
    if ((can >> 1 & 1) != 0 && (chance(run_percent) || (can & ~2u) == 0)) {
        return 1;
    }
    for (;;) {
        const unsigned status = between(2, 5);
        if ((can >> status & 1) != 0) {
            return status;
        }
        if ((can & ~2u) == 0) {
            return 1;
        }
    }
}

/* Any state that fits, reached or not. */
static void draw_state(struct session *s, unsigned run_percent)
{
    const struct policy *p = &s->policy;
    unsigned can[MAX_N] = {0};

    for (unsigned k = p->n; k-- > 0;) {
        can[k] = can_hold(p, k, can);
    }
    memset(s->state, 0, sizeof s->state);
    record(s, 0)[0] = (uint8_t)draw_status(can[0], run_percent);
    for (unsigned k = 0; k < p->n; k++) {
        const struct node *node = &p->nodes[k];
        const unsigned status = record(s, k)[0];
        if (node->kind >= PAR_AND) {
            unsigned l = 6, r = 6;
            while (status == 1 && (l == 6 || !side_pair_runs(node->kind, l, r))) {
                l = draw_status(can[node->left], 75);
                r = draw_status(can[node->right], 75);
            }
            record(s, node->left)[0] = (uint8_t)l;
            record(s, node->right)[0] = (uint8_t)r;
        } else if (node->kind == LEAF && status == 1) {
            unsigned offset = below(node->count);
            while (node->steps[offset].kind != NEXT) {
                offset = below(node->count);
            }
            record(s, k)[1] = (uint8_t)offset;
            const uint32_t counter =
                chance(50) ? node->start
                           : (uint32_t)((draw64() >> 32) % ((uint64_t)node->start + 1));
            put(record(s, k) + 4, counter, 4);
        }
    }
    put_front(s);
}

/* Clauses 8 to 11 of break_state: offset and counter of a record. */
static bool break_place(const struct policy *p, unsigned k, uint8_t *rec, unsigned clause)
{
    const struct node *node = &p->nodes[k];

    switch (clause) {
    case 8: /* a running leaf off its nexts */
        if (node->kind != LEAF || rec[0] != 1) {
            return false;
        }
        rec[1] = (uint8_t)(chance(60) ? below(node->count) : between(node->count, 255));
        return true;
    case 9: /* a counter above the start */
        if (node->kind != LEAF || rec[0] != 1 || node->start == UINT32_MAX) {
            return false;
        }
        put(rec + 4, chance(50) ? node->start + 1 : UINT32_MAX, 4);
        return true;
    case 10: /* an offset where there is none */
        if (node->kind == LEAF && rec[0] == 1) {
            return false;
        }
        rec[1] = (uint8_t)between(1, chance(50) ? 3 : 255);
        return true;
    default: /* a counter where there is none */
        if (node->kind == LEAF && rec[0] == 1) {
            return false;
        }
        spoil(rec, 4, 7, 1, 255);
        return true;
    }
}

/* Breaks one clause of rule 12, or answers false where there is no place for
 * it. The clauses are numbered in the order of 01's sentence. */
static bool break_state(struct session *s, unsigned clause)
{
    const struct policy *p = &s->policy;
    const unsigned k = below(p->n);
    const struct node *node = &p->nodes[k];
    uint8_t *rec = record(s, k);
    static const uint8_t ODD[] = {0, 7, 8, 128, 255};
    const unsigned edge = below(3);

    switch (clause) {
    case 0: /* a record from n on: the last byte, the first, or any */
        if (p->n == MAX_N) {
            return false;
        }
        spoil(record(s, 0), edge == 0 ? 247 : 8 * p->n, edge == 1 ? 8 * p->n : 247, 1, 255);
        return true;
    case 1: /* the two zeros */
        spoil(rec, 2, 3, 1, 255);
        return true;
    case 2: /* the root dropped, all beneath too */
        for (unsigned i = 0; i < p->n; i++) {
            put(record(s, i), UINT64_C(6) << 56, 8);
        }
        return true;
    case 3: /* dropped beneath a running node */
        if (node->kind < PAR_AND || rec[0] != 1) {
            return false;
        }
        put(record(s, chance(50) ? node->left : node->right), UINT64_C(6) << 56, 8);
        return true;
    case 4: /* not dropped beneath a decided or dropped node */
        if (node->kind < PAR_AND || rec[0] == 1) {
            return false;
        }
        spoil(record(s, chance(50) ? node->left : node->right), 0, 0, 1, 5);
        return true;
    case 5: /* a status that the kind doesn't hold */
        rec[0] = (uint8_t)between(1, 5);
        return true;
    case 6:
        rec[0] = ODD[below(5)];
        return true;
    case 7: /* a running node with sides that decide it */
        if (node->kind < PAR_AND || rec[0] != 1) {
            return false;
        }
        put(record(s, node->left), (uint64_t)(chance(50) ? 2 : 5) << 56, 8);
        if (chance(60)) {
            put(record(s, node->right), (uint64_t)(chance(50) ? 2 : 5) << 56, 8);
        }
        return true;
    default:
        return break_place(p, k, rec, clause);
    }
}

/* Breaks a clause of rule 12 in the records; mostly the count is that of the broken
 * records, so that it can't give them away. */
static bool break_records(struct session *s)
{
    if (!break_state(s, below(12))) {
        return false;
    }
    if (chance(75)) {
        put_front(s);
    }
    return true;
}

/* A count that isn't that of the running leaves: off by one, or of other nodes, or
 * with one bit turned, or any; answers false where it is the right one. */
static bool break_count(struct session *s)
{
    static const uint8_t OTHERS[][2] = {
        {SEQ_OR, 1}, {LEAF, 2}, {LEAF, 5}, {LEAF, 6}, {TRIVIAL, 2}, {UNSATISFIABLE, 5}, {SEQ_OR, 6},
    };
    const unsigned right = count_nodes(s, LEAF, 1);
    const uint8_t *other = OTHERS[below(7)];
    uint8_t wrong;

    switch (below(5)) {
    case 0:
        wrong = (uint8_t)(right + 1);
        break;
    case 1:
        wrong = (uint8_t)(right - 1);
        break;
    case 2:
        wrong = (uint8_t)count_nodes(s, other[0], other[1]);
        break;
    case 3:
        wrong = (uint8_t)(right ^ 1u << below(8));
        break;
    default:
        wrong = (uint8_t)(chance(50) ? below(32) : below(256));
        break;
    }
    s->state[7] = wrong;
    return wrong != right;
}

/* Breaks the eight bytes in front of a state that fits, or answers false. */
static bool break_front(struct session *s)
{
    const uint8_t count = s->state[7];

    if (chance(55)) {
        return break_count(s);
    }
    if (chance(75)) { /* the count is right, a byte before it isn't zero */
        spoil(s->state, 0, 6, 1, chance(50) ? 2 : 255);
        return true;
    }
    s->state[7] = 0; /* the count stands at another place */
    s->state[below(7)] = count;
    return count != 0;
}

/* A state as it was before it had a front, 248 bytes; at times eight more after them. */
static void take_front_off(struct session *s)
{
    memmove(s->state, s->state + 8, 248);
    memset(s->state + 248, 0, 8);
    s->state_length = chance(70) ? 248 : GUARD_STATE_BYTES;
}

/* ------------------------------------------------------------------ */
/* Broken files: mutations of good ones, each aimed at one clause.      */

static uint8_t *file_node(struct file *f, unsigned k)
{
    return f->bytes + 6 + 16u * k;
}

static uint8_t *file_step(struct file *f, unsigned n, unsigned s)
{
    return f->bytes + 6 + 16u * n + 12u * s;
}

static uint8_t other_byte(uint8_t than)
{
    uint8_t byte;

    do {
        byte = (uint8_t)(chance(60) ? below(10) : below(256));
    } while (byte == than);
    return byte;
}

static void fix_length(struct file *f)
{
    put(f->bytes, f->length, 2);
}

/* Rules 1 to 3. */
static bool break_header(struct file *f, unsigned clause)
{
    static const uint8_t NODES[] = {0, 32, 33, 255};
    const unsigned n = f->bytes[3];
    const unsigned m = (unsigned)get(f->bytes + 4, 2);

    switch (clause) {
    case 0: /* fewer than 6 bytes, at times with a length field that agrees */
        f->length = below(6);
        if (chance(60)) {
            fix_length(f);
        }
        return true;
    case 1:
        put(f->bytes, chance(70) ? f->length + (chance(50) ? 1 : (size_t)-1) : below(65536), 2);
        return true;
    case 2: /* bytes given differ from the length field */
        f->length = chance(50) ? f->length - between(1, 16) : f->length + between(1, 16);
        return true;
    case 3:
        f->bytes[2] = other_byte(1);
        return true;
    case 4:
        f->bytes[3] = NODES[below(4)];
        return true;
    case 5:
        f->bytes[3] = (uint8_t)(n + (chance(50) ? 1u : 255u));
        return true;
    case 6:
        put(f->bytes + 4, chance(50) ? m + (chance(50) ? 1u : 65535u) : between(513, 65535), 2);
        return true;
    case 7: /* a length that agrees with the bytes, not with n and m */
        f->length = chance(50) ? f->length - between(1, 16) : f->length + between(1, 16);
        fix_length(f);
        return true;
    case 8: /* 32 nodes, all lengths in agreement */
        memmove(file_node(f, 32), file_node(f, n), f->length - 6 - 16u * n);
        for (unsigned k = n; k < 32; k++) {
            put(file_node(f, k), UINT64_C(2) << 56, 8);
            put(file_node(f, k) + 8, 0, 8);
        }
        f->bytes[3] = 32;
        f->length += 16u * (32 - n);
        fix_length(f);
        return true;
    default: /* 513 steps, all lengths in agreement */
        for (unsigned s = m; s < 513; s++) {
            write_step(file_step(f, n, s), &(struct step){.kind = END});
        }
        put(f->bytes + 4, 513, 2);
        f->length = 6 + 16u * n + 12u * 513;
        fix_length(f);
        return true;
    }
}

/* Rule 4 in a node. */
static bool break_node(struct file *f, unsigned clause)
{
    const unsigned n = f->bytes[3];
    const unsigned k = below(n);
    uint8_t *node = file_node(f, k);
    const bool leaf = node[0] == LEAF;
    const bool inner = node[0] >= PAR_AND;

    switch (clause) {
    case 0:
        node[0] = (uint8_t)(chance(50) ? 0 : between(8, 255));
        return true;
    case 1: /* left or right of a node without sides */
        spoil(node, 1, 2, 1, chance(50) ? n : 255);
        return !inner;
    case 2:
        node[3] = (uint8_t)(chance(40) ? 0 : between(65, chance(50) ? 65 : 255));
        return leaf;
    case 3:
        put(node + 8, 0, 8);
        return leaf;
    case 4: /* step count of a node that is no leaf */
        node[3] = (uint8_t)between(1, 64);
        return !leaf;
    case 5: /* counter */
        spoil(node, 4, 7, 1, 255);
        return !leaf;
    default: /* set */
        spoil(node, 8, 15, 1, 255);
        return !leaf;
    }
}

/* Rule 5 by one child field. */
static bool break_child(struct file *f, unsigned clause)
{
    const unsigned n = f->bytes[3];
    const unsigned k = below(n);
    uint8_t *node = file_node(f, k);
    const bool inner = node[0] >= PAR_AND;

    switch (clause) {
    case 0: /* child not above its parent */
        spoil(node, 1, 2, 0, k);
        return inner;
    case 1: /* child not below n */
        spoil(node, 1, 2, n, chance(70) ? n : 255);
        return inner;
    case 2: /* child twice, another never */
        node[1] = node[2];
        return inner;
    case 3:
        spoil(node, 1, 2, k, n);
        return inner;
    default: /* children without a parent */
        put(node, (uint64_t)between(TRIVIAL, UNSATISFIABLE) << 56, 8);
        return inner;
    }
}

/* A node that keeps to rules 4 and 5 but perhaps not to 6, 8, 9 or 10. */
static bool change_node(struct file *f, unsigned clause)
{
    uint8_t *node = file_node(f, below(f->bytes[3]));
    const bool leaf = node[0] == LEAF;
    const bool inner = node[0] >= PAR_AND;

    switch (clause) {
    case 0: /* another kind of inner node: rules 9 and 10, or still good */
        node[0] = (uint8_t)between(PAR_AND, SEQ_OR);
        return inner;
    case 1: { /* sides exchanged */
        const uint8_t left = node[1];
        node[1] = node[2];
        node[2] = left;
        return inner;
    }
    case 2: /* a leaf's step count off by one */
        node[3] = (uint8_t)(node[3] + (chance(50) ? 1 : 255));
        return leaf;
    default: { /* a leaf's set changed: rules 6, 8 and 9, or still good */
        const uint64_t bit = UINT64_C(1) << below(10);
        put(node + 8, get(node + 8, 8) ^ bit, 8);
        return leaf;
    }
    }
}

/* Rule 5 by a change of more than one field, or of the number of nodes; every
 * other rule is kept. */
static bool break_tree(struct file *f, unsigned clause)
{
    const unsigned n = f->bytes[3];
    uint8_t *last = file_node(f, n - 1);
    uint8_t *one = file_node(f, below(n)), *other = file_node(f, below(n));

    switch (clause) {
    case 0: { /* two child fields exchanged: each node is still a child once */
        if (one[0] < PAR_AND || other[0] < PAR_AND) {
            return false;
        }
        uint8_t *a = one + between(1, 2);
        if (file_node(f, *a)[0] >= PAR_AND && chance(50)) {
            other = file_node(f, *a); /* a node that becomes its own child */
        }
        uint8_t *b = other + between(1, 2);
        const uint8_t child = *a;
        *a = *b;
        *b = child;
        return true;
    }
    case 1: /* a node more, child of none */
        if (n == MAX_N) {
            return false;
        }
        memmove(last + 32, last + 16, f->length - 6 - 16u * n);
        put(last + 16, (uint64_t)between(TRIVIAL, UNSATISFIABLE) << 56, 8);
        put(last + 24, 0, 8);
        f->bytes[3]++;
        f->length += 16;
        fix_length(f);
        return true;
    default: { /* the last node taken away, its place given to another child */
        const unsigned m = (unsigned)get(f->bytes + 4, 2), steps = last[3];
        unsigned parent = 0;
        if (n < 3 || steps > m) {
            return false;
        }
        for (unsigned k = 0; k < n; k++) {
            const uint8_t *node = file_node(f, k);
            parent = node[0] >= PAR_AND && (node[1] == n - 1 || node[2] == n - 1) ? k : parent;
        }
        if (parent + 2 > n - 1) {
            return false;
        }
        uint8_t *field = file_node(f, parent) + (file_node(f, parent)[1] == n - 1 ? 1 : 2);
        *field = (uint8_t)between(parent + 1, n - 2);
        memmove(last, last + 16, f->length - 6 - 16u * n);
        f->bytes[3]--;
        put(f->bytes + 4, m - steps, 2);
        f->length -= 16 + 12u * steps;
        fix_length(f);
        return true;
    }
    }
}

/* Rule 6: steps that no leaf owns, or a leaf that owns more than there are. */
static bool break_sum(struct file *f)
{
    const unsigned n = f->bytes[3];
    const unsigned m = (unsigned)get(f->bytes + 4, 2);
    const bool more = chance(60);

    if ((more && m > MAX_M - 2) || (!more && m == 0)) {
        return false;
    }
    const unsigned by = more ? between(1, 2) : 1;
    for (unsigned i = 0; more && i < by; i++) {
        write_step(file_step(f, n, m + i), &(struct step){.kind = END});
    }
    put(f->bytes + 4, more ? m + by : m - by, 2);
    f->length = 6 + 16u * n + 12u * (more ? m + by : m - by);
    fix_length(f);
    return true;
}

/* A step of a random leaf, with its leaf's number of steps and set. */
struct place {
    uint8_t *step, *own;
    unsigned offset, count;
    uint64_t set;
};

static bool find_step(struct file *f, struct place *at)
{
    const unsigned n = f->bytes[3];
    const unsigned m = (unsigned)get(f->bytes + 4, 2);
    unsigned s, first = 0;

    if (m == 0 || n == 0 || n > MAX_N || m > MAX_M) {
        return false;
    }
    s = below(m);
    for (unsigned k = 0; k < n; k++) {
        const uint8_t *node = file_node(f, k);
        if (first + node[3] > m) {
            return false; /* broken before */
        }
        if (s < first + node[3]) {
            at->own = file_step(f, n, first);
            at->step = file_step(f, n, s);
            at->offset = s - first;
            at->count = node[3];
            at->set = get(node + 8, 8);
            return true;
        }
        first += node[3];
    }
    return false;
}

/* A step of a kind, if chance finds one. */
static bool find_kind(struct file *f, struct place *at, uint8_t kind)
{
    for (unsigned tries = 0; tries < 100; tries++) {
        if (find_step(f, at) && at->step[0] == kind) {
            return true;
        }
    }
    return false;
}

static unsigned targets(uint8_t kind)
{
    return kind == NEXT || kind == ACASE || kind == SPEND ? 2
           : kind == OK || kind == SUP || kind == INS     ? 1
                                                          : 0;
}

/* Gives a step another kind and the fields that go with it. */
static void turn_step(const struct place *at, uint8_t kind)
{
    uint8_t *s = at->step;

    s[0] = kind;
    s[1] = (uint8_t)(kind == INS ? below(10) : 0);
    s[2] = (uint8_t)(targets(kind) > 0 ? below(at->count) : 0);
    s[3] = (uint8_t)(targets(kind) > 1 ? below(at->count) : 0);
    put(s + 4, kind == ACASE ? at->set & draw64() : kind == SPEND ? below(4) : 0, 8);
}

/* Rule 4 in a step. */
static bool break_fields(struct file *f, unsigned clause)
{
    struct place at;

    if (!find_step(f, &at)) {
        return false;
    }
    const uint8_t kind = at.step[0];
    switch (clause) {
    case 0:
        at.step[0] = (uint8_t)(chance(50) ? 0 : between(9, chance(50) ? 9 : 255));
        return true;
    case 1:
        at.step[1] = (uint8_t)(kind == INS ? between(64, chance(50) ? 64 : 255) : between(1, 255));
        return true;
    case 2: /* a target not used */
        if (targets(kind) == 2) {
            return false;
        }
        spoil(at.step, targets(kind) == 1 ? 3 : 2, 3, 1, 255);
        return true;
    default: /* operand not used, or a spend above 32 bits */
        if (kind == ACASE) {
            return false;
        }
        if (kind == SPEND && chance(50)) {
            put(at.step + 4, UINT64_C(0x100000000) + below(3), 8);
            return true;
        }
        spoil(at.step, 4, kind == SPEND ? 7 : 11, 1, 255);
        return true;
    }
}

/* Rules 6 to 9 in a step. */
static bool break_step(struct file *f, unsigned clause)
{
    struct place at;

    if (!find_step(f, &at)) {
        return false;
    }
    const uint8_t kind = at.step[0];
    const unsigned used = targets(kind);
    uint8_t *target = at.step + 2 + (used == 2 ? below(2) : 0);
    switch (clause) {
    case 0: /* a target outside */
        *target = (uint8_t)between(at.count, chance(50) ? at.count : 255);
        return used > 0;
    case 1: /* a target not later */
        *target = (uint8_t)below(at.offset + 1);
        return used > 0;
    case 2: /* any target inside */
        *target = (uint8_t)below(at.count);
        return used > 0;
    case 3: { /* take and done exchanged, yes and no exchanged */
        const uint8_t first = at.step[2];
        at.step[2] = at.step[3];
        at.step[3] = first;
        return used == 2;
    }
    case 4:
        turn_step(&at, (uint8_t)between(NEXT, HALT));
        return true;
    case 5: /* the same fields under another kind */
        at.step[0] = (uint8_t)(kind == OK    ? SUP
                               : kind == SUP ? OK
                               : kind == END ? HALT
                               : kind == HALT ? END
                               : kind == NEXT ? SPEND
                               : kind == SPEND ? ACASE
                                               : kind);
        return true;
    case 6: /* another insert */
        at.step[1] = (uint8_t)below(10);
        return kind == INS;
    default: { /* two steps exchanged */
        uint8_t *other = at.own + 12u * below(at.count);
        for (unsigned i = 0; i < 12; i++) {
            const uint8_t byte = at.step[i];
            at.step[i] = other[i];
            other[i] = byte;
        }
        return true;
    }
    }
}

/* Rules 6 and 8 in an acase: a set that isn't inside the leaf's set; a branch
 * that no possible action takes. */
static bool break_acase(struct file *f)
{
    struct place at;

    if (!find_kind(f, &at, ACASE)) {
        return false;
    }
    const uint64_t set = get(at.step + 4, 8);
    const uint64_t noise = draw64();
    const uint64_t sets[] = {set | UINT64_C(1) << (noise & 63), noise, at.set, 0,
                             at.set & noise, set ^ (at.set & noise)};
    put(at.step + 4, sets[below(6)], 8);
    return true;
}

/* A step count moved from one leaf to another: the sum holds. */
static bool move_count(struct file *f)
{
    const unsigned n = f->bytes[3];
    uint8_t *from = file_node(f, below(n));
    uint8_t *to = file_node(f, below(n));

    if (from == to || from[0] != LEAF || to[0] != LEAF || from[3] < 2 || to[3] > 63) {
        return false;
    }
    from[3]--;
    to[3]++;
    return true;
}

static bool break_file(struct file *f)
{
    static const unsigned SHARES[] = {12, 10, 9, 14, 12, 3, 4, 14, 26, 9, 4};
    unsigned flip;

    switch (pick_weighted(SHARES, 11)) {
    case 0:
        return break_header(f, below(10));
    case 1: /* rule 4 in a node */
        return break_node(f, below(7));
    case 2: /* rule 5 */
        return break_child(f, below(5));
    case 3: /* rules 6, 8, 9 and 10 in a node */
        return change_node(f, below(4));
    case 4:
        return break_fields(f, below(4));
    case 5:
        return move_count(f);
    case 6:
        flip = 1u << below(8);
        f->bytes[below((unsigned)f->length)] ^= (uint8_t)flip;
        return true;
    case 7:
        return break_acase(f);
    case 8:
        return break_step(f, below(8));
    case 9:
        return break_tree(f, below(3));
    default:
        return break_sum(f);
    }
}

/* ------------------------------------------------------------------ */
/* Places: a rule broken in several records, so that the lowest is to be found, or
 * two rules in one file, of which the second may be broken in a lower record.  */

/* Rule 7: another target that rule 6 lets stand, a later step or a next. */
static bool lead_astray(struct file *f)
{
    struct place at;

    if (!find_step(f, &at) || targets(at.step[0]) == 0) {
        return false;
    }
    const unsigned to = below(at.count);
    at.step[2 + below(targets(at.step[0]))] = (uint8_t)to;
    return to > at.offset || at.own[12u * to] == NEXT;
}

/* Rule 8, or still good: another set inside the leaf's. */
static bool ask_anew(struct file *f)
{
    struct place at;

    if (!find_kind(f, &at, ACASE)) {
        return false;
    }
    put(at.step + 4, chance(30) ? at.set : chance(30) ? 0 : thin(at.set, 50), 8);
    return true;
}

/* Rule 6 in an acase: an action that the leaf doesn't regulate. */
static bool ask_outside(struct file *f)
{
    struct place at;
    const uint64_t bit = UINT64_C(1) << below(64);

    if (!find_kind(f, &at, ACASE)) {
        return false;
    }
    put(at.step + 4, get(at.step + 4, 8) | bit, 8);
    return (at.set & bit) == 0;
}

/* Rule 9, or still good: an inner node made parallel. */
static bool lay_side_by_side(struct file *f)
{
    uint8_t *node = file_node(f, below(f->bytes[3]));
    const bool inner = node[0] >= PAR_AND && node[0] <= SEQ_OR;

    if (inner) {
        node[0] = chance(50) ? PAR_AND : PAR_OR;
    }
    return inner;
}

static bool break_rule(struct file *f, unsigned rule)
{
    switch (rule) {
    case 4:
        return chance(40) ? break_node(f, below(7)) : break_fields(f, below(4));
    case 5: /* one field, or two fields exchanged */
        return chance(70) ? break_child(f, below(5)) : break_tree(f, 0);
    case 6:
        return chance(6) ? break_sum(f) : chance(20) ? ask_outside(f) : break_step(f, below(2));
    case 7:
        return chance(80) ? lead_astray(f) : break_step(f, 5);
    case 8:
        return ask_anew(f);
    default:
        return lay_side_by_side(f);
    }
}

/* Breaks a rule up to so many times, as far as chance finds records for it. */
static void break_often(struct file *f, unsigned rule, unsigned times)
{
    for (unsigned tries = 0; times > 0 && tries < 40; tries++) {
        const struct file before = *f;
        if (break_rule(f, rule)) {
            times--;
        } else {
            *f = before;
        }
    }
}

static void break_places(struct file *f)
{
    const unsigned rule = between(4, 9);
    const unsigned times = between(1, 4);

    break_often(f, rule, times);
    if (chance(35)) {
        const unsigned other = between(4, 9);
        break_often(f, other, between(1, 2));
    }
}

/* A leaf that keeps to rule 6 and seldom to rule 7: kinds by chance, every target a
 * later step or a next. Its modes go every way, back to a next from a step that
 * stands in two modes or in a wrong one too. */
static void loose_leaf(struct node *leaf, uint64_t set)
{
    static const unsigned KINDS[] = {0, 20, 15, 8, 10, 20, 20, 4, 3};
    const unsigned count = chance(85) ? between(2, 7) : between(8, 40);

    *leaf = (struct node){.kind = LEAF, .count = (uint8_t)count, .set = set};
    leaf->start = draw_start();
    for (unsigned s = 0; s < count; s++) {
        leaf->steps[s].kind = (uint8_t)pick_weighted(KINDS, 9);
    }
    if (chance(85)) {
        leaf->steps[0].kind = NEXT;
    }
    leaf->steps[count - 1].kind = chance(70) ? END : HALT; /* every other has a later one */
    for (unsigned s = 0; s < count; s++) {
        struct step *step = &leaf->steps[s];
        for (unsigned t = 0; t < targets(step->kind); t++) {
            unsigned to = chance(40) && s + 1 < count ? s + 1 : below(count);
            while (to <= s && leaf->steps[to].kind != NEXT) {
                to = below(count);
            }
            step->to[t] = (uint8_t)to;
        }
        step->action = (uint8_t)(step->kind == INS ? below(10) : 0);
        step->operand = step->kind == ACASE   ? thin(set, 50)
                        : step->kind == SPEND ? below(4)
                                              : 0;
    }
}

/* A small tree with a loose leaf or more; the other leaves are good ones. */
static void grow_loose(struct session *s)
{
    struct policy *p = &s->policy;
    const unsigned inner = below(5);
    const unsigned shape = below(4);

    grow_shape(p, inner, shape);
    for (unsigned k = 0; k < p->n; k++) {
        struct node *node = &p->nodes[k];
        if (node->kind >= PAR_AND) {
            continue;
        }
        uint64_t set = UINT64_C(1) << below(6);
        set |= UINT64_C(1) << below(6);
        if (chance(50)) {
            loose_leaf(node, set);
        } else if (chance(70)) {
            const unsigned width = below(4);
            plain_leaf(node, set, width, below(8));
        } else {
            node->kind = chance(50) ? TRIVIAL : UNSATISFIABLE;
        }
    }
    write_file(&s->file, p);
    s->sets = guard_check(s->file.bytes, s->file.length);
}

/* ------------------------------------------------------------------ */
/* What a batch is made of.                                             */

static void fresh_state(struct session *s)
{
    if (chance(50)) {
        pattern(s->state, sizeof s->state);
    } else {
        draw_state(s, 80);
    }
}

/* A run of the guard: open, offers, close; here and there a call that is to be
 * refused, which leaves the state as it was. */
static void draw_run(struct session *s)
{
    draw_good(s);
    right_buffers(s);
    if (chance(15)) {
        call(s, CHECK, (uint8_t)below(256));
    }
    fresh_state(s);
    call(s, OPEN, (uint8_t)below(256));
    for (unsigned offers = between(1, 14); offers > 0 && calls_left > 0; offers--) {
        if (chance(3)) {
            wrong_buffers(s);
            call_with_action(s, between(OPEN, CLOSE));
            right_buffers(s);
        }
        const guard_answer answer = call_with_action(s, OFFER);
        if (answer.refusal == 14 || (record(s, 0)[0] != GUARD_RUNNING && chance(70))) {
            break;
        }
    }
    if (chance(80)) {
        call(s, CLOSE, (uint8_t)below(256));
        if (chance(15)) {
            call_with_action(s, chance(70) ? OFFER : CLOSE);
        }
    }
}

/* Fitting states that no run need reach. */
static void draw_anywhere(struct session *s)
{
    draw_good(s);
    for (unsigned times = between(1, 5); times > 0; times--) {
        right_buffers(s);
        draw_state(s, 92);
        call_with_action(s, chance(75) ? OFFER : CLOSE);
        if (chance(40)) {
            call_with_action(s, chance(60) ? OFFER : CLOSE);
        }
    }
}

static void draw_unfit(struct session *s)
{
    draw_good(s);
    for (unsigned times = between(1, 4); times > 0; times--) {
        const bool in_front = chance(45);
        right_buffers(s);
        do {
            draw_state(s, 75);
        } while (!(in_front ? break_front(s) : break_records(s)));
        if (chance(8)) {
            draw_state(s, 75);
            take_front_off(s);
        } else if (chance(5)) {
            wrong_buffers(s);
        }
        call_with_action(s, chance(70) ? OFFER : CLOSE);
    }
}

static void any_call(struct session *s)
{
    right_buffers(s);
    if (chance(10)) {
        wrong_buffers(s);
    }
    fresh_state(s);
    call_with_action(s, chance(55) ? CHECK : between(OPEN, CLOSE));
}

/* A good file with one clause broken, or with two, or with a rule broken in more than
 * one record. */
static void break_good(struct file *f, const struct file *good)
{
    if (chance(45)) {
        *f = *good;
        break_places(f);
        return;
    }
    do {
        *f = *good;
    } while (!break_file(f));
    if (chance(20) && f->length == good->length && memcmp(f->bytes, good->bytes, 6) == 0) {
        (void)break_file(f); /* two at once: the lower number is due */
    }
}

static void draw_broken(struct session *s)
{
    draw_good(s);
    const struct file good = s->file;
    for (unsigned times = between(1, 5); times > 0; times--) {
        break_good(&s->file, &good);
        any_call(s);
    }
}

/* A file aimed at rules 9 and 10 by its making. */
static void grow_wide(struct session *s)
{
    if (chance(30)) {
        grow_storm(&s->policy);
    } else if (chance(30)) {
        grow_sum(&s->policy);
    } else {
        grow_policy(&s->policy, between(256, 3000));
    }
    if (chance(30)) {
        for (unsigned k = 0; k < s->policy.n; k++) {
            if (s->policy.nodes[k].kind >= PAR_AND && chance(50)) {
                s->policy.nodes[k].kind = (uint8_t)between(PAR_AND, SEQ_OR);
            }
        }
    }
    write_file(&s->file, &s->policy);
    s->sets = guard_check(s->file.bytes, s->file.length);
}

static void draw_wide(struct session *s)
{
    grow_wide(s);
    any_call(s);
}

static void draw_loose(struct session *s)
{
    grow_loose(s);
    any_call(s);
}

static void noise(uint8_t *bytes, size_t length)
{
    for (size_t i = 0; i < length; i++) {
        bytes[i] = (uint8_t)(chance(50) ? below(9) : below(256));
    }
}

/* Bytes by chance, some under a header that agrees. */
static void draw_noise(struct session *s)
{
    struct file *f = &s->file;
    const unsigned n = between(1, 3);
    const unsigned m = below(6);

    draw_good(s);
    f->length = chance(50) ? below(200) : 6 + 16u * n + 12u * m;
    noise(f->bytes, f->length);
    if (chance(70) && f->length >= 6) {
        fix_length(f);
        f->bytes[2] = 1;
        f->bytes[3] = (uint8_t)n;
        put(f->bytes + 4, m, 2);
    }
    any_call(s);
}

/* ------------------------------------------------------------------ */
/* Calls of the writer.                                                 */

static struct field nodes, steps, out;

/* The records of a file whose counts and length agree. */
static void take_apart(const struct file *f)
{
    nodes.length = 16u * f->bytes[3];
    steps.length = f->length - 6 - nodes.length;
    memcpy(nodes.bytes, f->bytes + 6, nodes.length);
    memcpy(steps.bytes, f->bytes + 6 + nodes.length, steps.length);
}

/* An output for a file of a length: too short by chance, else exact or longer. */
static size_t draw_room(size_t length, unsigned short_percent)
{
    static const unsigned FEW[] = {0, 1, 5, 6, 21};

    if (chance(short_percent)) {
        switch (below(4)) {
        case 0:
            return 0;
        case 1:
            return FEW[below(5)];
        case 2:
            return below((unsigned)length);
        default:
            return length - 1;
        }
    }
    if (chance(1)) {
        return MAX_FIELD;
    }
    return chance(45) ? length : length + (chance(40) ? 1 : between(1, 300));
}

/* Writes one call with an output for a file of a length. */
static void call_write(size_t length, unsigned short_percent)
{
    const size_t room = draw_room(length, short_percent);

    if (calls_left == 0) {
        return;
    }
    calls_left--;
    out.length = room > MAX_FIELD ? MAX_FIELD : room;
    pattern(out.bytes, out.length);
    putchar(WRITE);
    write_field(nodes.bytes, nodes.length);
    write_field(steps.bytes, steps.length);
    write_field(out.bytes, out.length);
    putchar((int)below(256));
}

/* The same, the length being that of a file with these very records. */
static void call_write_all(unsigned short_percent)
{
    call_write(6 + nodes.length + steps.length, short_percent);
}

static void more_nodes(unsigned count)
{
    for (; count > 0; count--, nodes.length += 16) {
        write_node(nodes.bytes + nodes.length, &(struct node){.kind = TRIVIAL});
    }
}

static void more_steps(unsigned count)
{
    for (; count > 0; count--, steps.length += 12) {
        write_step(steps.bytes + steps.length, &(struct step){.kind = END});
    }
}

/* A leaf without inserts: next, spends, ok, end. Trivial when it is to have no
 * step; 1 and 2 steps it can't have. */
static void calm_leaf(struct node *leaf, unsigned count)
{
    *leaf = (struct node){.kind = count == 0 ? TRIVIAL : LEAF, .count = (uint8_t)count};
    if (count == 0) {
        return;
    }
    leaf->set = 1;
    for (unsigned s = 1; s + 2 < count; s++) {
        leaf->steps[s] = (struct step){SPEND, 0, {(uint8_t)(s + 1), (uint8_t)(s + 1)}, 0};
    }
    leaf->steps[0] = (struct step){NEXT, 0, {1, (uint8_t)(count - 1)}, 0};
    leaf->steps[count - 2] = (struct step){OK, 0, {0, 0}, 0};
    leaf->steps[count - 1] = (struct step){END, 0, {0, 0}, 0};
}

/* n nodes, an odd number up to 255, and m steps that keep to every rule but
 * perhaps to the ranges of n and m: 2i has the sides 2i + 1 and 2i + 2. */
static void grow_calm(unsigned n, unsigned m)
{
    unsigned ends = (n + 1) / 2; /* still without their share of the steps */

    nodes.length = steps.length = 0;
    for (unsigned k = 0; k < n; k++, nodes.length += 16) {
        struct node node = {.kind = (uint8_t)(chance(50) ? PAR_AND : SEQ_OR)};
        if (k % 2 == 0 && k + 1 < n) {
            node.left = (uint8_t)(k + 1);
            node.right = (uint8_t)(k + 2);
        } else {
            calm_leaf(&node, m / ends);
            m -= node.count;
            ends--;
        }
        write_node(nodes.bytes + nodes.length, &node);
        for (unsigned s = 0; s < node.count; s++, steps.length += 12) {
            write_step(steps.bytes + steps.length, &node.steps[s]);
        }
    }
}

/* Counts at the ends of their ranges, and outside; no other rule is broken. */
static void draw_calm(void)
{
    static const struct {
        unsigned n, m;
    } COUNTS[] = {{31, 512}, {31, 0},   {1, 0},    {17, 512},  {31, 511}, {31, 513}, {17, 513},
                  {33, 0},   {33, 512}, {31, 768}, {31, 1024}, {63, 0},   {255, 0},  {255, 512}};
    const unsigned which = chance(50) ? below(5) : between(5, 13);

    grow_calm(COUNTS[which].n, COUNTS[which].m);
    call_write_all(25);
}

/* Good records, and so many more that a count or the length of the file is the
 * same again in 5, 8, 9, 10, 12 or 16 bits. */
static void draw_wrapped(const struct file *good)
{
    static const unsigned NODES[] = {32, 64, 256, 512}, STEPS[] = {512, 1024, 4096};
    unsigned pages;

    switch (pick_weighted((const unsigned[]){50, 35, 15}, 3)) {
    case 0:
        more_nodes(NODES[below(4)]);
        break;
    case 1:
        more_steps(STEPS[pick_weighted((const unsigned[]){50, 30, 20}, 3)]);
        break;
    default: /* 16 x 256 x pages + 12 x the rest = 65,536 */
        pages = 4 + 3 * below(4);
        more_nodes(256 * pages);
        more_steps((65536 - 4096 * pages) / 12);
        break;
    }
    if (chance(50)) {
        call_write(good->length, 10);
    } else {
        call_write_all(10);
    }
}

/* Counts out of range, by records taken away or records that the tree has no place
 * for; other rules are broken too. */
static void draw_counts(const struct file *good)
{
    const unsigned n = good->bytes[3];
    const unsigned m = (unsigned)get(good->bytes + 4, 2);

    switch (below(5)) {
    case 0: /* no nodes */
        nodes.length = 0;
        steps.length = chance(50) ? steps.length : 0;
        break;
    case 1: /* no steps: in range, but rule 6 is broken where there is a leaf */
        steps.length = 0;
        break;
    case 2:
        more_nodes(32 - n);
        break;
    case 3:
        more_steps(513 - m);
        break;
    default:
        more_nodes(257 - n);
        break;
    }
    call_write_all(30);
}

/* A length off by some bytes, within a record of the size. */
static size_t off_by(size_t length, unsigned size)
{
    const unsigned by = chance(40) ? 1 : between(1, size - 1);

    return length >= by && chance(50) ? length - by : length + by;
}

/* Buffers that aren't whole records; at times they are together as long as whole
 * ones. What stands behind the records is left from earlier calls. */
static void draw_pieces(const struct file *good)
{
    const size_t length = nodes.length + steps.length;

    switch (below(4)) {
    case 0:
        nodes.length = off_by(nodes.length, 16);
        break;
    case 1:
        steps.length = off_by(steps.length, 12);
        break;
    case 2:
        nodes.length = off_by(nodes.length, 16);
        steps.length = off_by(steps.length, 12);
        break;
    default:
        nodes.length = off_by(nodes.length, 16);
        steps.length = nodes.length > length ? 0 : length - nodes.length;
        break;
    }
    if (chance(50)) {
        call_write(good->length, 30);
    } else {
        call_write_all(30);
    }
}

/* The records of a good file parted at another place: some records more or fewer
 * on a side, or nodes for steps and steps for nodes. */
static void draw_parted(const struct file *good)
{
    static const unsigned SIZES[] = {12, 16, 48};
    const size_t length = nodes.length + steps.length;
    const size_t size = SIZES[below(3)];
    const size_t by = size * between(1, 3);
    size_t first = nodes.length;

    if (chance(20)) {
        memcpy(nodes.bytes, good->bytes + 6 + first, length - first);
        memcpy(steps.bytes, good->bytes + 6, first);
        nodes.length = length - first;
        steps.length = first;
    } else {
        first = chance(60) ? first + by : first > by ? first - by : 0;
        first = first > length ? length : first;
        memcpy(nodes.bytes, good->bytes + 6, first);
        memcpy(steps.bytes, good->bytes + 6 + first, length - first);
        nodes.length = first;
        steps.length = length - first;
    }
    call_write_all(25);
}

/* A file with a broken rule taken apart, where its counts and length agree. */
static void draw_broken_records(struct session *s, const struct file *good)
{
    guard_sets sets;

    do {
        break_good(&s->file, good);
        sets = guard_check(s->file.bytes, s->file.length);
    } while (sets.refusal >= 1 && sets.refusal <= 3);
    take_apart(&s->file);
    call_write_all(35);
}

/* Whole records of bytes by chance. */
static void draw_noise_records(void)
{
    nodes.length = 16u * between(1, chance(80) ? 3 : MAX_N);
    steps.length = 12u * below(6);
    noise(nodes.bytes, nodes.length);
    noise(steps.bytes, steps.length);
    call_write_all(30);
}

static void draw_write(struct session *s)
{
    static const unsigned SHARES[] = {160, 45, 15, 8, 8, 12, 6, 10, 8, 3};

    draw_passing(s);
    const struct file good = s->file;
    for (unsigned times = between(1, 4); times > 0; times--) {
        take_apart(&good);
        switch (pick_weighted(SHARES, 10)) {
        case 0:
            call_write_all(15);
            break;
        case 1:
            draw_broken_records(s, &good);
            break;
        case 2:
            grow_wide(s);
            take_apart(&s->file);
            call_write_all(35);
            break;
        case 3:
            draw_counts(&good);
            break;
        case 4:
            draw_wrapped(&good);
            break;
        case 5:
            draw_pieces(&good);
            break;
        case 6:
            draw_parted(&good);
            break;
        case 7:
            draw_calm();
            break;
        case 8:
            grow_loose(s);
            take_apart(&s->file);
            call_write_all(35);
            break;
        default:
            draw_noise_records();
            break;
        }
    }
}

/* ------------------------------------------------------------------ */
/* Trace runs.                                                          */

enum { MAX_TRACE = 300 };

struct trace {
    unsigned length;
    uint8_t actions[MAX_TRACE];
    unsigned calls;               /* made on the way, one that is refused 13 too */
    size_t before[MAX_TRACE + 2]; /* event bytes written when each begins */
};

static unsigned draw_trace_length(void)
{
    switch (pick_weighted((const unsigned[]){8, 15, 40, 35, 2}, 5)) {
    case 0:
        return 0;
    case 1:
        return between(1, 3);
    case 2:
        return between(4, 12);
    case 3:
        return between(13, 40);
    default: /* more than a byte counts, if nothing stops it */
        return between(250, MAX_TRACE);
    }
}

/* Actions from 0 to 63, mostly regulated ones; in some traces one above. */
static void draw_actions(const struct session *s, struct trace *t)
{
    static const uint8_t ABOVE[] = {64, 65, 127, 128, 192, 255};
    const uint64_t set = s->sets.regulated.bits;
    const unsigned percent = chance(50) ? 97 : between(60, 100);

    t->length = draw_trace_length();
    for (unsigned i = 0; i < t->length; i++) {
        t->actions[i] = (uint8_t)(set != 0 && chance(percent) ? member(set) : below(64));
    }
    if (t->length > 0 && chance(20)) {
        const unsigned at = below(t->length);
        t->actions[at] = (uint8_t)(chance(70) ? ABOVE[below(6)] : between(64, 255));
    }
}

/* Makes the calls of a run one by one, to know what each finds written before it. */
static void walk(const struct session *s, struct trace *t)
{
    static uint8_t state[GUARD_STATE_BYTES], events[GUARD_EVENT_BYTES];
    const struct file *f = &s->file;
    size_t written = 0;
    guard_answer answer =
        guard_open(f->bytes, f->length, state, sizeof state, events, sizeof events);

    t->calls = 0;
    t->before[t->calls++] = written;
    for (unsigned i = 0; i <= t->length; i++) { /* the last is closing */
        if (answer.refusal != 0 || answer.status == GUARD_HALTED) {
            return;
        }
        written += 2u * answer.events;
        t->before[t->calls++] = written;
        if (i < t->length) {
            answer = guard_offer(f->bytes, f->length, state, sizeof state, events,
                                 sizeof events, t->actions[i]);
        }
    }
}

/* What one call needs, mostly one that finds events written. */
static size_t draw_need(const struct trace *t)
{
    size_t before = 0;

    for (unsigned tries = 0; before == 0 && tries < 3; tries++) {
        before = t->before[below(t->calls)];
    }
    return before + GUARD_EVENT_BYTES;
}

/* A byte or an event less than a need; seldom less than opening's. */
static size_t draw_short(size_t need)
{
    return need > GUARD_EVENT_BYTES || chance(30) ? need - between(1, 2) : need + below(3);
}

/* Room for the events of a run: enough for every call, just enough, a byte or an event
 * short of the last call's need or of any, just enough for any, or too little to open. */
static size_t draw_run_room(const struct trace *t)
{
    static const unsigned FEW[] = {0, 1, 2, 256, 510, 511};
    const size_t last = t->before[t->calls - 1] + GUARD_EVENT_BYTES;
    const size_t any = draw_need(t);

    switch (pick_weighted((const unsigned[]){36, 15, 17, 20, 6, 6}, 6)) {
    case 0:
        return last + between(1, chance(50) ? 3 : 600);
    case 1:
        return last;
    case 2:
        return draw_short(last);
    case 3:
        return draw_short(any);
    case 4:
        return any + below(3);
    default:
        return chance(60) ? FEW[below(6)] : below(GUARD_EVENT_BYTES);
    }
}

static void write_run(const struct session *s, const struct trace *t, uint8_t start)
{
    static uint8_t both[ROOM + MAX_TRACE];

    memcpy(both, s->file.bytes, s->file.length);
    memcpy(both + s->file.length, t->actions, t->length);
    putchar(TRACE);
    write_field(both, s->file.length + t->length);
    write_field(s->state, s->state_length);
    write_field(out.bytes, out.length);
    putchar(start);
}

/* One run of the file as it is, with a trace or without one. */
static void call_trace(struct session *s, bool with_actions)
{
    static struct trace t;
    static const unsigned STATES[] = {255, 257, 0, 1, 8, 248, 249, 264};
    uint8_t start = 0;

    if (calls_left == 0) {
        return;
    }
    calls_left--;
    draw_actions(s, &t);
    t.length = with_actions ? t.length : 0;
    walk(s, &t);
    fresh_state(s);
    s->state_length = GUARD_STATE_BYTES;
    size_t room = draw_run_room(&t);
    if (chance(6)) {
        s->state_length = STATES[below(8)];
        room = chance(70) ? room : below(GUARD_EVENT_BYTES);
    }
    out.length = room > MAX_FIELD ? MAX_FIELD : room;
    pattern(out.bytes, out.length);
    if (chance(50)) {
        start = (uint8_t)(chance(85) ? between(1, 6) : below(256));
    }
    write_run(s, &t, start);
}

/* A run of a policy that is mostly refused: with a broken rule; aimed at 9 and 10; with
 * loose leaves; about as long as a policy can be; a few bytes of a good one, or of any. */
static void trace_refused(struct session *s, const struct file *good)
{
    struct file *f = &s->file;

    switch (pick_weighted((const unsigned[]){56, 12, 12, 6, 14}, 5)) {
    case 0:
        break_good(f, good);
        break;
    case 1:
        grow_wide(s);
        break;
    case 2:
        grow_loose(s);
        break;
    case 3:
        pattern(f->bytes + f->length, ROOM - f->length);
        f->length = between(6640, 6660);
        put(f->bytes, chance(70) ? between(6644, 6650) : between(6647, 65535), 2);
        break;
    default:
        f->length = chance(50) ? below(8) : below((unsigned)good->length);
        if (chance(30)) {
            noise(f->bytes, f->length);
        }
        if (f->length >= 2 && chance(40)) {
            fix_length(f);
        }
        break;
    }
    call_trace(s, chance(70));
}

/* A policy that opens halted. */
static void draw_halted(struct session *s)
{
    static uint8_t events[GUARD_EVENT_BYTES];
    guard_answer answer;
    unsigned tries = 0;

    do {
        draw_passing(s);
        answer = guard_open(s->file.bytes, s->file.length, s->state, GUARD_STATE_BYTES, events,
                            sizeof events);
    } while (answer.status != GUARD_HALTED && tries++ < 100);
}

static void draw_trace(struct session *s)
{
    if (chance(5)) {
        draw_halted(s);
    } else {
        draw_good(s);
    }
    const struct file good = s->file;
    for (unsigned times = between(1, 3); times > 0; times--) {
        call_trace(s, true);
    }
    if (chance(30)) {
        trace_refused(s, &good);
    }
}

int main(int argc, char **argv)
{
    static struct session s;
    static const unsigned SHARES[] = {38, 23, 14, 20, 9, 4, 24, 15, 8};

    if (argc != 3) {
        fputs("draw SEED COUNT\n", stderr);
        return 2;
    }
    seed_word = (strtoull(argv[1], NULL, 10) + 1) * UINT64_C(0x9E3779B97F4A7C15);
    seed_word = seed_word == 0 ? 1 : seed_word;
    calls_left = strtoul(argv[2], NULL, 10);
    while (calls_left > 0) {
        switch (pick_weighted(SHARES, 9)) {
        case 0:
            draw_run(&s);
            break;
        case 1:
            draw_anywhere(&s);
            break;
        case 2:
            draw_unfit(&s);
            break;
        case 3:
            draw_broken(&s);
            break;
        case 4:
            draw_wide(&s);
            break;
        case 5:
            draw_noise(&s);
            break;
        case 6:
            draw_write(&s);
            break;
        case 7:
            draw_loose(&s);
            break;
        default:
            draw_trace(&s);
            break;
        }
    }
    return fflush(stdout) == 0 ? 0 : 1;
}
