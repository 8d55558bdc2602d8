/* What an element does with a message (docs/MACHINE.md, "The waiting-matching store" to "Element step"). The store and
   the bank are two tables of a rank, for all of its elements, since all for one tag, and all for one cell, meets at one
   element. A table is half full at most, and doubles; an entry stands at its home, or behind it with no gap between. */
#include "machine.h"

struct half { struct tag tag; struct value value; uint32_t used; }; /* a value that waits for its partner */

static struct half *halves;
static size_t half_count, half_room, cell_count;
static uint32_t free_reply; /* from 1 in `replies`, or 0 */

void make_tables(void) {
    half_room = cell_room = 1024;
    halves = cleared(half_room, sizeof *halves);
    cells = cleared(cell_room, sizeof *cells);
}

static size_t mixed(uint64_t a, uint64_t b, uint64_t c) {
    uint64_t it = a * 0x9E3779B97F4A7C15u ^ (b * 0xD6E8FEB86659FD93u + c) * 0xFF51AFD7ED558CCDu;
    it = (it ^ it >> 32) * 0xC4CEB9FE1A85EC53u;
    return (size_t)(it ^ it >> 29);
}

/* Neighbouring instructions of one iteration stand side by side. */
static size_t half_home(struct tag it) {
    return (mixed(it.context, it.iteration, it.instr / 8) / 8 * 8 + it.instr % 8) & (half_room - 1);
}

static struct half *find_half(struct tag tag) {
    size_t at = half_home(tag);
    for (; halves[at].used; at = (at + 1) & (half_room - 1)) {
        struct tag it = halves[at].tag;
        if (it.instr == tag.instr && it.context == tag.context && it.iteration == tag.iteration)
            break;
    }
    return &halves[at];
}

static void keep_half(struct half *place, struct tag tag, struct value value) {
    *place = (struct half){tag, value, 1};
    if (2 * ++half_count < half_room)
        return;
    struct half *old = halves;
    size_t room = half_room;
    half_room *= 2;
    halves = cleared(half_room, sizeof *halves);
    for (size_t i = 0; i < room; i++)
        if (old[i].used)
            *find_half(old[i].tag) = old[i];
    free(old);
}

/* Takes a value out: those behind it that may not stand behind a hole move up. */
static void drop_half(size_t hole) {
    size_t mask = half_room - 1;
    half_count--;
    for (size_t at = (hole + 1) & mask; halves[at].used; at = (at + 1) & mask) {
        if (((at - half_home(halves[at].tag)) & mask) >= ((at - hole) & mask)) {
            halves[hole] = halves[at];
            hole = at;
        }
    }
    halves[hole].used = 0;
}

static struct cell *find_cell(struct value address) {
    size_t at = mixed(address.id, address.more, 0) & (cell_room - 1);
    while (cells[at].state != EMPTY && (cells[at].address.id != address.id || cells[at].address.more != address.more))
        at = (at + 1) & (cell_room - 1);
    return &cells[at];
}

/* The cell of an address, which stays in the table from now on. */
static struct cell *cell_of(struct value address) {
    struct cell *it = find_cell(address);
    if (it->state != EMPTY)
        return it;
    if (2 * ++cell_count >= cell_room) {
        struct cell *old = cells;
        size_t room = cell_room;
        cell_room *= 2;
        cells = cleared(cell_room, sizeof *cells);
        for (size_t i = 0; i < room; i++)
            if (old[i].state != EMPTY)
                *find_cell(old[i].address) = old[i];
        free(old);
        it = find_cell(address);
    }
    *it = (struct cell){.address = address, .state = AWAITED};
    return it;
}

static void defer(struct cell *cell, struct tag tag) {
    uint32_t number = free_reply;
    struct reply *it = number ? (struct reply *)replies.at + number - 1 : more(&replies, sizeof *it);
    if (number)
        free_reply = it->next;
    else
        number = (uint32_t)replies.count;
    *it = (struct reply){tag, cell->replies};
    cell->replies = number;
}

struct value truth(int64_t it) { return (struct value){.number = it != 0, .kind = IS_BOOL}; }

static enum cause calculate(uint32_t op, int64_t a, int64_t b, struct value *v) {
    int64_t *n = &v->number;
    switch (op) {
    case ADD: return __builtin_add_overflow(a, b, n) ? OVERFLOWN : NONE;
    case NEG: return __builtin_sub_overflow((int64_t)0, a, n) ? OVERFLOWN : NONE;
    case SUB: return __builtin_sub_overflow(a, b, n) ? OVERFLOWN : NONE;
    case MUL: return __builtin_mul_overflow(a, b, n) ? OVERFLOWN : NONE;
    case DIV:
    case REM:
        if (b == 0)
            return BY_ZERO;
        if (b == -1)
            return __builtin_sub_overflow((int64_t)0, a, n) ? OVERFLOWN : (*n = op == DIV ? *n : 0, NONE);
        *n = op == DIV ? a / b : a % b;
        return NONE;
    case LT: *v = truth(a < b); return NONE;
    case LE: *v = truth(a <= b); return NONE;
    case GT: *v = truth(a > b); return NONE;
    case GE: *v = truth(a >= b); return NONE;
    case EQ:
    case EQB: *v = truth(a == b); return NONE;
    case NE:
    case NEB: *v = truth(a != b); return NONE;
    case AND: *v = truth(a && b); return NONE;
    case OR: *v = truth(a || b); return NONE;
    default: *v = truth(!a); return NONE;
    }
}

/* Keeps what made a context or a structure, for the names in the report. */
static struct value kept(struct list *list, struct value it, struct tag by) {
    *(struct made *)more(list, sizeof(struct made)) = (struct made){it, by, 0};
    return it;
}

/* Fires an instruction under a tag, on one operand or two: sends what it gives, or says why it gives nothing. */
static enum cause fire(struct element *it, struct tag at, struct value a, struct value b) {
    const struct instr *in = instr_at(at.instr);
    uint64_t iteration = at.iteration;
    uint32_t from = in->yes, end = in->no;
    struct value v = a;
    int64_t wide;
    enum cause cause = NONE;
    switch (in->op) {
    case CONST: v = in->value; break;
    case MERGE: break;
    case NEXT: iteration++; break;
    case RESET: iteration = 0; break;
    case BACK: send_token(a.id, (uint64_t)a.number, a.more, 0, b); return NONE;
    case SEND: send_token(a.id, 0, in->b, 0, b); return NONE;
    case FETCH: send_message((struct tag){at.context, iteration, in->b, READ, 0}, (struct value){0}, a); return NONE;
    case STORE: send_message((struct tag){at.context, iteration, at.instr, WRITE, 0}, b, a); return NONE;
    case SWITCH:
        v = b;
        if (!a.number)
            from = in->no, end = in->end;
        break;
    case ENTER:
        v = (struct value){++it->contexts * ELEMENTS + (uint64_t)(it - elements), 0, 0, IS_CONTEXT};
        kept(&contexts, v, at);
        send_token(v.id, 0, in->a, 0, (struct value){.kind = IS_SIGNAL});
        send_token(v.id, 0, in->a + 1, 0, (struct value){at.context, (int64_t)iteration, in->b, IS_CONTINUATION});
        break;
    case ALLOC:
        if (__builtin_sub_overflow(b.number, a.number, &wide) || wide < -1 || wide >= CELLS)
            return BAD_BOUNDS;
        v = (struct value){++it->structures * ELEMENTS + (uint64_t)(it - elements), a.number, (uint32_t)(wide + 1),
                           IS_STRUCTURE};
        kept(&structures, v, at);
        break;
    case ADDRESS:
        if (__builtin_sub_overflow(b.number, a.number, &wide) || wide < 0 || wide >= a.more)
            return OUT_OF_BOUNDS;
        v = (struct value){a.id, b.number, (uint32_t)wide, IS_ADDRESS};
        break;
    default: cause = calculate(in->op, a.number, b.number, &v);
    }
    if (cause != NONE)
        return cause;
    if (v.kind == IS_INT && from < end && spoils("value"))
        v.number ^= 1;
    for (const struct arc *arc = (struct arc *)arcs.at + from, *last = arc + (end - from); arc < last; arc++)
        send_token(at.context, iteration, arc->to, arc->port, v);
    return NONE;
}

static enum cause step_token(struct element *it, struct tag tag, struct value value) {
    const struct value none = {0};
    if (tag.instr == 0 && tag.context == 0 && tag.iteration == 0 && !answered)
        answered = 1, answer = value;
    if (instr_at(tag.instr)->op <= FETCH)
        return fire(it, tag, value, none);
    struct half *half = find_half(tag);
    if (!half->used) {
        keep_half(half, tag, value);
        return NONE;
    }
    if (half->tag.what == tag.what)
        return STUCK;
    struct value first = half->value;
    drop_half((size_t)(half - halves));
    return tag.what == PORT_0 ? fire(it, tag, value, first) : fire(it, tag, first, value);
}

static enum cause step_cell(const struct message *m) {
    struct cell *cell = cell_of(m->cell);
    if (m->tag.what == READ) {
        if (cell->state == FULL)
            send_token(m->tag.context, m->tag.iteration, m->tag.instr, 0, cell->value);
        else
            defer(cell, m->tag);
        return NONE;
    }
    if (cell->state == FULL)
        return SECOND_STORE;
    cell->state = FULL, cell->value = m->value, cell->origin = m->tag;
    for (uint32_t number = cell->replies, next; number != 0; number = next) {
        struct reply *it = (struct reply *)replies.at + number - 1;
        struct tag to = it->tag;
        next = it->next, it->next = free_reply, free_reply = number;
        send_token(to.context, to.iteration, to.instr, 0, m->value);
    }
    cell->replies = 0;
    return NONE;
}

/* The fault that a report names is the first by stamp, and at one stamp by element. */
static void note_fault(const struct message *m, enum cause cause) {
    stopping = 1;
    if (now > fault.stamp || (now == fault.stamp && m->tag.element > fault.element))
        return;
    fault = (struct fault){now, m->tag.element, cause, m->tag, m->tag, m->cell};
    if (cause == SECOND_STORE)
        fault.other = find_cell(m->cell)->origin;
}

void handle(const struct message *m) {
    struct element *it = &elements[m->tag.element];
    now = it->stamp = (it->stamp > m->stamp ? it->stamp : m->stamp) + 1 + (uint64_t)spoils("stamp");
    enum cause cause = m->tag.what < READ ? step_token(it, m->tag, m->value) : step_cell(m);
    handled++;
    if (log_name != NULL)
        write_line(it, m, cause);
    if (cause != NONE && cause != STUCK)
        note_fault(m, cause);
}

