#include "workloads.h"

#include <stdio.h>
#include <stdlib.h>

const struct implementation implementations[IMPLEMENTATIONS] = {
    {"ambercell", ambercell_check, ambercell_finish},
    {"gcc", gcc_check, gcc_finish},
    {"clang", clang_check, clang_finish},
};

struct workload workloads[WORKLOADS];

enum { PROCESSORS = 4, EAX = 0 };

static void put(uint8_t *bytes, size_t *length, size_t room, unsigned kind, unsigned processor, unsigned reg, unsigned location,
                uint32_t value)
{
    if (*length + 8 > room)
        abort();
    uint8_t *r = bytes + *length;
    r[0] = (uint8_t)kind;
    r[1] = (uint8_t)processor;
    r[2] = (uint8_t)reg;
    r[3] = (uint8_t)location;
    for (int i = 0; i < 4; i++)
        r[4 + i] = (uint8_t)(value >> 8 * i);
    *length += 8;
}

static void row(struct workload *w, unsigned kind, unsigned processor, unsigned reg, unsigned location, uint32_t value)
{
    put(w->table, &w->table_bytes, TABLE_BYTES, kind, processor, reg, location, value);
}

static void step(struct workload *w, unsigned kind, unsigned processor, unsigned location, uint32_t value)
{
    put(w->trace, &w->trace_bytes, TRACE_BYTES, kind, processor, 0, location, value);
}

/* Locked exchange-and-adds on location 0, in turns; EAX begins as 1, 2, 3, 4. */
static void adds_table(struct workload *w, unsigned each)
{
    for (unsigned p = 0; p < PROCESSORS; p++)
        row(w, AMBERCELL_REGISTER, p, EAX, 0, p + 1);
    for (unsigned i = 0; i < each; i++)
        for (unsigned p = 0; p < PROCESSORS; p++)
            row(w, AMBERCELL_LOCKED_EXCHANGE_ADD, p, EAX, 0, 0);
}

static void adds(struct workload *w, unsigned each)
{
    uint32_t eax[PROCESSORS] = {1, 2, 3, 4}, memory = 0;
    adds_table(w, each);
    for (unsigned i = 0; i < each; i++)
        for (unsigned p = 0; p < PROCESSORS; p++) {
            uint32_t sum = memory + eax[p];
            step(w, AMBERCELL_STEP_LOCK, p, 0, 0);
            step(w, AMBERCELL_STEP_READ, p, 0, memory);
            step(w, AMBERCELL_STEP_WRITE, p, 0, sum);
            step(w, AMBERCELL_STEP_DRAIN, p, 0, sum);
            step(w, AMBERCELL_STEP_UNLOCK, p, 0, 0);
            eax[p] = memory;
            memory = sum;
        }
    w->place = w->trace_bytes / 8;
}

static void sb_table(struct workload *w)
{
    row(w, AMBERCELL_STORE, 0, 0, 0, 1);
    row(w, AMBERCELL_LOAD, 0, EAX, 1, 0);
    row(w, AMBERCELL_STORE, 1, 0, 1, 1);
    row(w, AMBERCELL_LOAD, 1, EAX + 1, 0, 0);
}

static void sb(struct workload *w)
{
    sb_table(w);
    step(w, AMBERCELL_STEP_WRITE, 0, 0, 1);
    step(w, AMBERCELL_STEP_WRITE, 1, 1, 1);
    step(w, AMBERCELL_STEP_READ, 0, 1, 0);
    step(w, AMBERCELL_STEP_READ, 1, 0, 0);
    step(w, AMBERCELL_STEP_DRAIN, 0, 0, 1);
    step(w, AMBERCELL_STEP_DRAIN, 1, 1, 1);
    w->place = 6;
}

static void stores_table(struct workload *w)
{
    for (unsigned i = 0; i < 16; i++)
        for (unsigned p = 0; p < PROCESSORS; p++)
            row(w, AMBERCELL_STORE, p, 0, i % 8, 100 * p + i);
}

static void stores(struct workload *w)
{
    stores_table(w);
    for (unsigned i = 0; i < 16; i++)
        for (unsigned p = 0; p < PROCESSORS; p++)
            step(w, AMBERCELL_STEP_WRITE, p, i % 8, 100 * p + i);
    for (unsigned i = 0; i < 16; i++)
        for (unsigned p = 0; p < PROCESSORS; p++)
            step(w, AMBERCELL_STEP_DRAIN, p, i % 8, 100 * p + i);
    w->place = 128;
}

/* Location 5 is written first and never again, 0 to 4 after it, 6 and 7 never: the loads find the newest write, the oldest, none, none. */
enum { STORES = 12, LOADS = 4 };

static unsigned stored(unsigned i) { return i == 0 ? 5 : (i - 1) % 5; }

static void loads_table(struct workload *w)
{
    static const unsigned loaded[LOADS] = {0, 5, 6, 7};
    for (unsigned p = 0; p < PROCESSORS; p++) {
        for (unsigned i = 0; i < STORES; i++)
            row(w, AMBERCELL_STORE, p, 0, stored(i), 100 * p + i);
        for (unsigned i = 0; i < LOADS; i++)
            row(w, AMBERCELL_LOAD, p, i, loaded[i], 0);
    }
}

static void loads(struct workload *w)
{
    loads_table(w);
    for (unsigned i = 0; i < STORES; i++)
        for (unsigned p = 0; p < PROCESSORS; p++)
            step(w, AMBERCELL_STEP_WRITE, p, stored(i), 100 * p + i);
    for (unsigned p = 0; p < PROCESSORS; p++) {
        step(w, AMBERCELL_STEP_READ, p, 0, 100 * p + STORES - 1);
        step(w, AMBERCELL_STEP_READ, p, 5, 100 * p);
        step(w, AMBERCELL_STEP_READ, p, 6, 0);
        step(w, AMBERCELL_STEP_READ, p, 7, 0);
    }
    for (unsigned i = 0; i < STORES; i++)
        for (unsigned p = 0; p < PROCESSORS; p++)
            step(w, AMBERCELL_STEP_DRAIN, p, stored(i), 100 * p + i);
    w->place = 112;
}

/* Lookups: on each processor so many stores, then loads of one location, as many as there is room for: that of the newest write, that of the
 * oldest, or one that none is to. The trace ends with the last load; BEFORE, it ends with the last store: calls that differ by the reads alone. */
enum look { BEFORE, NEWEST, OLDEST, ABSENT, LOOKS };

static void looks(struct workload *w, unsigned waiting, enum look look)
{
    unsigned found = look == OLDEST ? 0 : waiting - 1;
    unsigned location = look == ABSENT ? 6 : stored(found);

    for (unsigned p = 0; p < PROCESSORS; p++) {
        for (unsigned i = 0; i < waiting; i++)
            row(w, AMBERCELL_STORE, p, 0, stored(i), 100 * p + i);
        for (unsigned i = waiting; i < 16; i++)
            row(w, AMBERCELL_LOAD, p, EAX, location, 0);
    }
    for (unsigned i = 0; i < waiting; i++)
        for (unsigned p = 0; p < PROCESSORS; p++)
            step(w, AMBERCELL_STEP_WRITE, p, stored(i), 100 * p + i);
    for (unsigned i = waiting; i < 16 && look != BEFORE; i++)
        for (unsigned p = 0; p < PROCESSORS; p++)
            step(w, AMBERCELL_STEP_READ, p, location, look == ABSENT ? 0 : 100 * p + found);
    w->number = AMBERCELL_UNFINISHED;
    w->place = w->trace_bytes / 8;
}

/* Sixteen reads between sixteen writes on each processor. Location 7 comes first and last, 0 to 6 twice between: the first read of a
 * location finds none of the waiting writes, the second one seven or fifteen writes back. */
static unsigned exchanged(unsigned i) { return i == 0 || i == 15 ? 7 : (i - 1) % 7; }

static void exchanges(struct workload *w)
{
    uint32_t eax[PROCESSORS], own[PROCESSORS][8] = {{0}}, written[PROCESSORS][16];

    for (unsigned p = 0; p < PROCESSORS; p++)
        row(w, AMBERCELL_REGISTER, p, EAX, 0, eax[p] = 100 * p + 50);
    for (unsigned i = 0; i < 16; i++)
        for (unsigned p = 0; p < PROCESSORS; p++) {
            unsigned location = exchanged(i);
            uint32_t kept = own[p][location];
            row(w, AMBERCELL_EXCHANGE, p, EAX, location, 0);
            step(w, AMBERCELL_STEP_READ, p, location, kept);
            step(w, AMBERCELL_STEP_WRITE, p, location, eax[p]);
            own[p][location] = written[p][i] = eax[p];
            eax[p] = kept;
        }
    for (unsigned i = 0; i < 16; i++)
        for (unsigned p = 0; p < PROCESSORS; p++)
            step(w, AMBERCELL_STEP_DRAIN, p, exchanged(i), written[p][i]);
    w->place = 192;
}

static void refuse(struct workload *w)
{
    step(w, AMBERCELL_STEP_DRAIN, 0, 0, 1);
    w->number = AMBERCELL_NOTHING_WAITS;
}

static struct workload *next(const char *name, int finishes)
{
    static size_t made;
    if (made == WORKLOADS)
        abort();
    workloads[made].name = name;
    workloads[made].finishes = finishes;
    return &workloads[made++];
}

static void make_lookups(void)
{
    enum { FILLS = 4 };
    static const unsigned waiting[FILLS] = {1, 4, 8, 15};
    static const char *const read[LOOKS] = {"before", "newest", "oldest", "absent"};
    static char names[FILLS][LOOKS][16];

    for (unsigned i = 0; i < FILLS; i++)
        for (enum look look = BEFORE; look < LOOKS; look++) {
            snprintf(names[i][look], sizeof names[i][look], "%s-%u", read[look], waiting[i]);
            looks(next(names[i][look], 0), waiting[i], look);
        }
}

void make_workloads(void)
{
    struct workload *w;

    adds(next("a", 0), 16);
    sb(next("b", 0));
    stores(next("c1", 0));
    loads(next("c2", 0));
    exchanges(next("c3", 0));
    w = next("d", 0);
    sb_table(w);
    refuse(w);
    w = next("d64", 0);
    adds_table(w, 16);
    refuse(w);
    next("empty", 0);

    adds(next("a40", 0), 2);
    adds(next("a80", 0), 4);
    adds(next("a160", 0), 8);
    adds(next("a320", 0), 16);

    w = next("finish-a", 1);
    adds_table(w, 16);
    w->place = 320;
    w = next("finish-half", 1);
    adds(w, 16);
    w->trace_bytes = 8 * 160;
    w->place = 160;
    w = next("finish-b", 1);
    sb_table(w);
    w->place = 6;
    w = next("finish-c1", 1);
    stores_table(w);
    w->place = 128;
    w = next("finish-c2", 1);
    loads_table(w);
    w->place = 112;
    w = next("finish-d", 1);
    sb_table(w);
    refuse(w);
    w = next("finish-d64", 1);
    adds_table(w, 16);
    refuse(w);

    make_lookups();
}
