/* Compiled with -DCHECK=... and -DFINISH=..., the names of the two calls. */
#include "plain.h"

#include <string.h>

enum { PROCESSORS = 4, REGISTERS = 4, LOCATIONS = 8, INSTRUCTIONS = 16, NOBODY = PROCESSORS };

enum { KINDS = 12, PHASES = 4 };

enum { PROCESSOR = 1, REGISTER = 2, LOCATION = 4, VALUE = 8 };

/* Of each kind of a table's records: the fields that it uses, its program steps, their number, and that number with the drains. */
static const uint8_t uses[KINDS] = {
    [AMBERCELL_MEMORY] = LOCATION | VALUE,
    [AMBERCELL_REGISTER] = PROCESSOR | REGISTER | VALUE,
    [AMBERCELL_STORE] = PROCESSOR | LOCATION | VALUE,
    [AMBERCELL_STORE_REGISTER] = PROCESSOR | REGISTER | LOCATION,
    [AMBERCELL_LOAD] = PROCESSOR | REGISTER | LOCATION,
    [AMBERCELL_SET] = PROCESSOR | REGISTER | VALUE,
    [AMBERCELL_FENCE] = PROCESSOR,
    [AMBERCELL_EXCHANGE] = PROCESSOR | REGISTER | LOCATION,
    [AMBERCELL_LOCKED_EXCHANGE] = PROCESSOR | REGISTER | LOCATION,
    [AMBERCELL_EXCHANGE_ADD] = PROCESSOR | REGISTER | LOCATION,
    [AMBERCELL_LOCKED_EXCHANGE_ADD] = PROCESSOR | REGISTER | LOCATION,
};

static const uint8_t program_steps[KINDS][PHASES] = {
    [AMBERCELL_STORE] = {AMBERCELL_STEP_WRITE},
    [AMBERCELL_STORE_REGISTER] = {AMBERCELL_STEP_WRITE},
    [AMBERCELL_LOAD] = {AMBERCELL_STEP_READ},
    [AMBERCELL_SET] = {AMBERCELL_STEP_LOCAL},
    [AMBERCELL_FENCE] = {AMBERCELL_STEP_FENCE},
    [AMBERCELL_EXCHANGE] = {AMBERCELL_STEP_READ, AMBERCELL_STEP_WRITE},
    [AMBERCELL_LOCKED_EXCHANGE] = {AMBERCELL_STEP_LOCK, AMBERCELL_STEP_READ, AMBERCELL_STEP_WRITE, AMBERCELL_STEP_UNLOCK},
    [AMBERCELL_EXCHANGE_ADD] = {AMBERCELL_STEP_READ, AMBERCELL_STEP_WRITE},
    [AMBERCELL_LOCKED_EXCHANGE_ADD] = {AMBERCELL_STEP_LOCK, AMBERCELL_STEP_READ, AMBERCELL_STEP_WRITE, AMBERCELL_STEP_UNLOCK},
};

static const uint8_t step_count[KINDS] = {0, 0, 0, 1, 1, 1, 1, 1, 2, 4, 2, 4};
static const uint8_t trace_steps[KINDS] = {0, 0, 0, 2, 2, 1, 1, 1, 3, 5, 3, 5};

struct record {
    uint8_t kind, processor, reg, location;
    uint32_t value;
};

struct instruction {
    uint8_t kind, reg, location;
    uint32_t value;
};

struct write {
    uint32_t location, value;
};

struct processor {
    uint32_t registers[REGISTERS];
    uint32_t kept;
    uint32_t instructions, at, phase;
    uint32_t issued, drained;
    struct instruction program[INSTRUCTIONS];
    struct write written[INSTRUCTIONS]; /* those from drained up to issued wait */
};

struct machine {
    struct processor processors[PROCESSORS];
    uint32_t memory[LOCATIONS];
    uint32_t holder;
    uint32_t left; /* steps of a finished trace that have not been taken */
    uint32_t own;  /* reads that own buffers served */
};

static ambercell_answer answer(uint64_t number, uint64_t place)
{
    return (ambercell_answer){number, place};
}

static struct record record_at(const uint8_t *bytes)
{
    uint32_t value = (uint32_t)bytes[4] | (uint32_t)bytes[5] << 8 | (uint32_t)bytes[6] << 16 | (uint32_t)bytes[7] << 24;
    return (struct record){bytes[0], bytes[1], bytes[2], bytes[3], value};
}

static void put_record(uint8_t *bytes, struct record r)
{
    bytes[0] = r.kind;
    bytes[1] = r.processor;
    bytes[2] = r.reg;
    bytes[3] = r.location;
    bytes[4] = (uint8_t)r.value;
    bytes[5] = (uint8_t)(r.value >> 8);
    bytes[6] = (uint8_t)(r.value >> 16);
    bytes[7] = (uint8_t)(r.value >> 24);
}

static ambercell_answer read_table(struct machine *m, const uint8_t *table, size_t bytes)
{
    size_t records = bytes / 8;
    unsigned given_memory = 0, given_registers = 0;
    int initial = 1;

    if (bytes % 8 != 0)
        return answer(AMBERCELL_TABLE_LENGTH, records);

    /* program and written are set before they are looked at */
    for (unsigned p = 0; p < PROCESSORS; p++)
        memset(&m->processors[p], 0, offsetof(struct processor, program));
    memset(m->memory, 0, sizeof m->memory);
    m->holder = NOBODY;
    m->left = 0;
    m->own = 0;

    for (size_t i = 0; i < records; i++) {
        struct record r = record_at(table + 8 * i);
        if (r.kind == 0 || r.kind >= KINDS)
            return answer(AMBERCELL_TABLE_KIND, i);

        unsigned used = uses[r.kind];
        if ((used & PROCESSOR && r.processor >= PROCESSORS) || (used & REGISTER && r.reg >= REGISTERS)
            || (used & LOCATION && r.location >= LOCATIONS))
            return answer(AMBERCELL_TABLE_RANGE, i);
        if ((!(used & PROCESSOR) && r.processor != 0) || (!(used & REGISTER) && r.reg != 0)
            || (!(used & LOCATION) && r.location != 0) || (!(used & VALUE) && r.value != 0))
            return answer(AMBERCELL_TABLE_UNUSED, i);

        if (r.kind <= AMBERCELL_REGISTER) {
            if (!initial)
                return answer(AMBERCELL_INITIAL_LATE, i);
            if (r.kind == AMBERCELL_MEMORY) {
                unsigned cell = 1u << r.location;
                if (given_memory & cell)
                    return answer(AMBERCELL_CELL_TWICE, i);
                given_memory |= cell;
                m->memory[r.location] = r.value;
            } else {
                unsigned cell = 1u << (REGISTERS * r.processor + r.reg);
                if (given_registers & cell)
                    return answer(AMBERCELL_CELL_TWICE, i);
                given_registers |= cell;
                m->processors[r.processor].registers[r.reg] = r.value;
            }
        } else {
            struct processor *p = &m->processors[r.processor];
            if (p->instructions == INSTRUCTIONS)
                return answer(AMBERCELL_SEVENTEENTH, i);
            p->program[p->instructions++] = (struct instruction){r.kind, r.reg, r.location, r.value};
            m->left += trace_steps[r.kind];
            initial = 0;
        }
    }
    return answer(AMBERCELL_DONE, records);
}

/* The newest own waiting write to the location, or NULL. */
static const struct write *newest(const struct processor *p, unsigned location)
{
    for (uint32_t i = p->issued; i > p->drained; i--)
        if (p->written[i - 1].location == location)
            return &p->written[i - 1];
    return NULL;
}

static uint32_t to_issue(const struct processor *p, const struct instruction *i)
{
    switch (i->kind) {
    case AMBERCELL_STORE:
        return i->value;
    case AMBERCELL_EXCHANGE_ADD:
    case AMBERCELL_LOCKED_EXCHANGE_ADD:
        return p->kept + p->registers[i->reg];
    default:
        return p->registers[i->reg];
    }
}

static void advance(struct processor *p, const struct instruction *i)
{
    if (++p->phase == step_count[i->kind]) {
        p->phase = 0;
        p->at++;
    }
}

static void read_value(struct processor *p, const struct instruction *i, uint32_t value)
{
    if (i->kind == AMBERCELL_LOAD)
        p->registers[i->reg] = value;
    else
        p->kept = value;
    advance(p, i);
}

static void issue(struct processor *p, const struct instruction *i, uint32_t value)
{
    p->written[p->issued++] = (struct write){i->location, value};
    if (i->kind >= AMBERCELL_EXCHANGE)
        p->registers[i->reg] = p->kept;
    advance(p, i);
}

static int blocked(const struct machine *m, unsigned processor)
{
    return m->holder != NOBODY && m->holder != processor;
}

static int empty(const struct processor *p)
{
    return p->drained == p->issued;
}

/* Takes the step if it is allowed, and answers 0, or else the number of why it is not. */
static unsigned step(struct machine *m, struct record r)
{
    struct processor *p = &m->processors[r.processor];

    if (r.kind == AMBERCELL_STEP_DRAIN) {
        const struct write *oldest = &p->written[p->drained];
        if (empty(p))
            return AMBERCELL_NOTHING_WAITS;
        if (blocked(m, r.processor))
            return AMBERCELL_LOCK_HELD;
        if (oldest->location != r.location || oldest->value != r.value)
            return AMBERCELL_NOT_RIGHT;
        p->drained++;
        m->memory[r.location] = r.value;
        return AMBERCELL_DONE;
    }

    const struct instruction *i = &p->program[p->at];
    const struct write *own;
    if (p->at == p->instructions || program_steps[i->kind][p->phase] != r.kind)
        return AMBERCELL_ANOTHER_KIND;
    switch (r.kind) {
    case AMBERCELL_STEP_READ:
        if (blocked(m, r.processor))
            return AMBERCELL_LOCK_HELD;
        own = newest(p, r.location);
        if (i->location != r.location || (own ? own->value : m->memory[r.location]) != r.value)
            return AMBERCELL_NOT_RIGHT;
        m->own += own != NULL;
        read_value(p, i, r.value);
        return AMBERCELL_DONE;
    case AMBERCELL_STEP_WRITE:
        if (i->location != r.location || to_issue(p, i) != r.value)
            return AMBERCELL_NOT_RIGHT;
        issue(p, i, r.value);
        return AMBERCELL_DONE;
    case AMBERCELL_STEP_FENCE:
        if (!empty(p))
            return AMBERCELL_BUFFER_NOT_EMPTY;
        break;
    case AMBERCELL_STEP_LOCK:
        if (blocked(m, r.processor))
            return AMBERCELL_LOCK_HELD;
        if (!empty(p))
            return AMBERCELL_BUFFER_NOT_EMPTY;
        m->holder = r.processor;
        break;
    case AMBERCELL_STEP_UNLOCK: /* who comes to it holds the lock */
        if (!empty(p))
            return AMBERCELL_BUFFER_NOT_EMPTY;
        m->holder = NOBODY;
        break;
    case AMBERCELL_STEP_LOCAL:
        p->registers[i->reg] = i->value;
        break;
    }
    advance(p, i);
    return AMBERCELL_DONE;
}

static ambercell_answer follow(struct machine *m, const uint8_t *trace, size_t bytes)
{
    size_t records = bytes / 8;
    if (bytes % 8 != 0)
        return answer(AMBERCELL_TRACE_LENGTH, records);

    for (size_t i = 0; i < records; i++) {
        struct record r = record_at(trace + 8 * i);
        if (r.kind == 0 || r.kind > AMBERCELL_STEP_LOCAL)
            return answer(AMBERCELL_TRACE_KIND, i);
        if (r.processor >= PROCESSORS || r.reg != 0
            || (r.kind <= AMBERCELL_STEP_DRAIN ? r.location >= LOCATIONS : r.location != 0 || r.value != 0))
            return answer(AMBERCELL_TRACE_FIELD, i);
        unsigned why = step(m, r);
        if (why != AMBERCELL_DONE)
            return answer(why, i);
    }
    m->left -= (uint32_t)records; /* each of them was a step of a finished trace */
    return answer(AMBERCELL_DONE, records);
}

/* The step that the processor takes when a run is finished; it has one, and is not blocked. */
static struct record move(struct machine *m, unsigned processor)
{
    struct processor *p = &m->processors[processor];
    struct record r = {0, (uint8_t)processor, 0, 0, 0};

    if (!empty(p)) {
        struct write oldest = p->written[p->drained++];
        m->memory[oldest.location] = oldest.value;
        r.kind = AMBERCELL_STEP_DRAIN;
        r.location = (uint8_t)oldest.location;
        r.value = oldest.value;
        return r;
    }

    const struct instruction *i = &p->program[p->at];
    r.kind = program_steps[i->kind][p->phase];
    switch (r.kind) {
    case AMBERCELL_STEP_READ:
        r.location = i->location;
        r.value = m->memory[i->location]; /* nothing waits */
        read_value(p, i, r.value);
        return r;
    case AMBERCELL_STEP_WRITE:
        r.location = i->location;
        r.value = to_issue(p, i);
        issue(p, i, r.value);
        return r;
    case AMBERCELL_STEP_LOCK:
        m->holder = processor;
        break;
    case AMBERCELL_STEP_UNLOCK:
        m->holder = NOBODY;
        break;
    case AMBERCELL_STEP_LOCAL:
        p->registers[i->reg] = i->value;
        break;
    }
    advance(p, i);
    return r;
}

ambercell_answer CHECK(const uint8_t *table, size_t table_bytes, const uint8_t *trace, size_t trace_bytes,
                       uint32_t *room, size_t room_words)
{
    struct machine m;
    ambercell_answer a = read_table(&m, table, table_bytes);
    if (a.number != AMBERCELL_DONE)
        return a;
    a = follow(&m, trace, trace_bytes);
    if (a.number != AMBERCELL_DONE)
        return a;
    if (m.left != 0)
        return answer(AMBERCELL_UNFINISHED, a.place);
    if (room_words < AMBERCELL_CHECK_WORDS)
        return answer(AMBERCELL_ROOM_TOO_SMALL, AMBERCELL_CHECK_WORDS);

    for (unsigned p = 0; p < PROCESSORS; p++)
        memcpy(room + REGISTERS * p, m.processors[p].registers, sizeof m.processors[p].registers);
    memcpy(room + REGISTERS * PROCESSORS, m.memory, sizeof m.memory);
    room[AMBERCELL_OUTCOME_WORDS] = m.own;
    return a;
}

ambercell_answer FINISH(const uint8_t *table, size_t table_bytes, const uint8_t *trace, size_t trace_bytes,
                        uint8_t *room, size_t room_bytes)
{
    struct machine m;
    ambercell_answer a = read_table(&m, table, table_bytes);
    if (a.number != AMBERCELL_DONE)
        return a;
    a = follow(&m, trace, trace_bytes);
    if (a.number != AMBERCELL_DONE)
        return a;
    size_t k = m.left;
    if (room_bytes < 8 * k)
        return answer(AMBERCELL_ROOM_TOO_SMALL, 8 * k);

    unsigned lowest = 0; /* processors below it have nothing left */
    for (size_t i = 0; i < k; i++) {
        while (m.processors[lowest].at == m.processors[lowest].instructions && empty(&m.processors[lowest]))
            lowest++;
        put_record(room + 8 * i, move(&m, m.holder == NOBODY ? lowest : m.holder));
    }
    return answer(AMBERCELL_DONE, k);
}
