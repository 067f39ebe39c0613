/* bench agree: the three implementations answer alike; prints how often each number was answered.
 * bench time LAYOUT: prints "time LAYOUT WORKLOAD IMPLEMENTATION NANOSECONDS", of one call. */
#define _POSIX_C_SOURCE 199309L
#include "workloads.h"

#include <stdio.h>
#include <stdlib.h>
#include <string.h>
#include <time.h>

static uint64_t seed = 88172645463325252u;

static unsigned below(unsigned n)
{
    seed ^= seed << 13;
    seed ^= seed >> 7;
    seed ^= seed << 17;
    return (unsigned)((seed >> 20) % n);
}

enum { ROOM = 8 * 330 };

static void show(const char *what, const uint8_t *bytes, size_t length)
{
    printf("%s, %zu bytes:", what, length);
    for (size_t i = 0; i < length; i++)
        printf(i % 8 ? " %02x" : "\n %02x", bytes[i]);
    printf("\n");
}

/* All numbers, and the one among them that is not given. */
enum { NUMBERS = AMBERCELL_NOTHING_WAITS + 1, NOT_GIVEN = 11 };

static unsigned long answers[NUMBERS];

/* Ends the program where the three differ in number, place or a byte of the room. */
static ambercell_answer same(int finishes, const uint8_t *table, size_t table_bytes, const uint8_t *trace, size_t trace_bytes,
                             size_t room)
{
    static union { uint8_t bytes[ROOM]; uint32_t words[ROOM / 4]; } left[IMPLEMENTATIONS];
    ambercell_answer given[IMPLEMENTATIONS];

    for (int i = 0; i < IMPLEMENTATIONS; i++) {
        const struct implementation *by = &implementations[i];
        memset(left[i].bytes, 0xa5, ROOM);
        given[i] = finishes ? by->finish(table, table_bytes, trace, trace_bytes, left[i].bytes, room)
                            : by->check(table, table_bytes, trace, trace_bytes, left[i].words, room);
    }
    for (int i = 1; i < IMPLEMENTATIONS; i++)
        if (given[i].number != given[0].number || given[i].place != given[0].place
            || memcmp(left[i].bytes, left[0].bytes, ROOM) != 0) {
            printf("%s with a room of %zu differs:\n", finishes ? "finish" : "check", room);
            for (int j = 0; j < IMPLEMENTATIONS; j++) {
                printf("%s: %llu at %llu\n", implementations[j].name, (unsigned long long)given[j].number,
                       (unsigned long long)given[j].place);
                if (given[j].number == AMBERCELL_DONE)
                    show("room", left[j].bytes, finishes ? 8 * given[j].place : 4 * AMBERCELL_CHECK_WORDS);
            }
            show("table", table, table_bytes);
            show("trace", trace, trace_bytes);
            exit(1);
        }
    answers[given[0].number]++;
    return given[0];
}

static size_t random_table(uint8_t *table)
{
    size_t records = 0;
    int locked = below(3) == 0;
    unsigned cells = below(6), instructions = below(4) == 0 ? 64 : below(24);
    unsigned processors = 1 + below(4), locations = 1 + below(8);

    for (unsigned i = 0; i < cells; i++) {
        uint8_t *r = table + 8 * records++;
        memset(r, 0, 8);
        if (below(2)) {
            r[0] = AMBERCELL_MEMORY;
            r[3] = (uint8_t)((i + below(2)) % 8);
        } else {
            r[0] = AMBERCELL_REGISTER;
            r[1] = (uint8_t)(i % 4);
            r[2] = (uint8_t)below(4);
        }
        r[4 + below(4)] = (uint8_t)below(256);
    }
    for (unsigned i = 0; i < instructions; i++) {
        uint8_t *r = table + 8 * records++;
        memset(r, 0, 8);
        r[0] = (uint8_t)(locked && below(2) ? 9 + 2 * below(2) : 3 + below(9));
        r[1] = (uint8_t)(instructions == 64 ? i % 4 : below(processors));
        if (r[0] != AMBERCELL_STORE && r[0] != AMBERCELL_FENCE)
            r[2] = (uint8_t)below(4);
        if (r[0] != AMBERCELL_SET && r[0] != AMBERCELL_FENCE)
            r[3] = (uint8_t)below(locations);
        if (r[0] == AMBERCELL_STORE || r[0] == AMBERCELL_SET)
            r[4 + (below(4) == 0) * below(4)] = (uint8_t)below(256);
    }
    return 8 * records;
}

/* What the next steps would name; whether they are allowed is left to the calls. */
struct walk {
    const uint8_t *code[4][16];
    unsigned instructions[4], at[4], phase[4], issued[4], drained[4];
    uint8_t written[4][16][8];
    uint32_t registers[4][4], kept[4], memory[8];
};

static uint32_t value_of(const uint8_t *record)
{
    return (uint32_t)record[4] | (uint32_t)record[5] << 8 | (uint32_t)record[6] << 16 | (uint32_t)record[7] << 24;
}

static void start(struct walk *w, const uint8_t *table, size_t table_bytes)
{
    memset(w, 0, sizeof *w);
    for (const uint8_t *r = table; r < table + table_bytes; r += 8)
        if (r[0] == AMBERCELL_MEMORY)
            w->memory[r[3]] = value_of(r);
        else if (r[0] == AMBERCELL_REGISTER)
            w->registers[r[1]][r[2]] = value_of(r);
        else
            w->code[r[1]][w->instructions[r[1]]++] = r;
}

static const char *const program_steps[12] = {"", "", "", "\2", "\2", "\1", "\7", "\4", "\1\2", "\5\1\2\6", "\1\2", "\5\1\2\6"};

static int propose(const struct walk *w, unsigned p, int drains, uint8_t *step)
{
    if (drains) {
        if (w->drained[p] == w->issued[p])
            return 0;
        memcpy(step, w->written[p][w->drained[p]], 8);
        step[0] = AMBERCELL_STEP_DRAIN;
        return 1;
    }
    if (w->at[p] == w->instructions[p])
        return 0;
    const uint8_t *r = w->code[p][w->at[p]];
    uint32_t value = 0;
    memset(step, 0, 8);
    step[0] = (uint8_t)program_steps[r[0]][w->phase[p]];
    step[1] = (uint8_t)p;
    if (step[0] == AMBERCELL_STEP_READ) {
        value = w->memory[r[3]];
        for (unsigned i = w->drained[p]; i < w->issued[p]; i++)
            if (w->written[p][i][3] == r[3])
                value = value_of(w->written[p][i]);
    } else if (step[0] == AMBERCELL_STEP_WRITE)
        value = r[0] == AMBERCELL_STORE ? value_of(r) : w->registers[p][r[2]] + (r[0] >= AMBERCELL_EXCHANGE_ADD ? w->kept[p] : 0);
    else
        return 1;
    step[3] = r[3];
    for (int i = 0; i < 4; i++)
        step[4 + i] = (uint8_t)(value >> 8 * i);
    return 1;
}

static void take(struct walk *w, unsigned p, const uint8_t *step)
{
    if (step[0] == AMBERCELL_STEP_DRAIN) {
        w->memory[step[3]] = value_of(step);
        w->drained[p]++;
        return;
    }
    const uint8_t *r = w->code[p][w->at[p]];
    uint32_t *reg = &w->registers[p][r[2]];
    if (step[0] == AMBERCELL_STEP_READ)
        *(r[0] == AMBERCELL_LOAD ? reg : &w->kept[p]) = value_of(step);
    else if (step[0] == AMBERCELL_STEP_LOCAL)
        *reg = value_of(r);
    else if (step[0] == AMBERCELL_STEP_WRITE) {
        memcpy(w->written[p][w->issued[p]++], step, 8);
        if (r[0] >= AMBERCELL_EXCHANGE)
            *reg = w->kept[p];
    }
    if (program_steps[r[0]][++w->phase[p]] == 0) {
        w->phase[p] = 0;
        w->at[p]++;
    }
}

/* A random allowed beginning, often a whole run. */
static size_t random_trace(const uint8_t *table, size_t table_bytes, uint8_t *trace)
{
    struct walk w;
    size_t length = 0;
    unsigned often = 1 + below(6), tries = below(4) == 0 ? below(100) : 2000;

    if (gcc_check(table, table_bytes, NULL, 0, NULL, 0).number < AMBERCELL_UNFINISHED)
        return 0;
    start(&w, table, table_bytes);
    while (tries-- > 0 && length < TRACE_BYTES) {
        unsigned p = below(4);
        if (!propose(&w, p, below(often) == 0, trace + length))
            continue;
        if (gcc_check(table, table_bytes, trace, length + 8, NULL, 0).number >= AMBERCELL_ANOTHER_KIND)
            continue;
        take(&w, p, trace + length);
        length += 8;
    }
    return length;
}

static void change(uint8_t *bytes, size_t *length, size_t room)
{
    size_t records = *length / 8;
    switch (below(6)) {
    case 0: /* one byte, to a small number */
        if (*length > 0)
            bytes[below((unsigned)*length)] = (uint8_t)below(13);
        break;
    case 1: /* one byte, to any */
        if (*length > 0)
            bytes[below((unsigned)*length)] = (uint8_t)below(256);
        break;
    case 2: /* a shorter length, perhaps no multiple of 8 */
        if (*length > 0)
            *length -= below(*length < 20 ? (unsigned)*length : 20);
        break;
    case 3: /* a record again */
        if (records > 0 && *length + 8 <= room) {
            memcpy(bytes + *length, bytes + 8 * below((unsigned)records), 8);
            *length += 8;
        }
        break;
    case 4: /* a record left out */
        if (records > 0) {
            size_t from = below((unsigned)records);
            memmove(bytes + 8 * from, bytes + 8 * from + 8, *length - 8 * from - 8);
            *length -= 8;
        }
        break;
    case 5: /* two neighbours turned */
        if (records > 1) {
            uint8_t *r = bytes + 8 * below((unsigned)records - 1), kept[8];
            memcpy(kept, r, 8);
            memcpy(r, r + 8, 8);
            memcpy(r + 8, kept, 8);
        }
        break;
    }
}

static void same_both(const uint8_t *table, size_t table_bytes, const uint8_t *trace, size_t trace_bytes)
{
    same(0, table, table_bytes, trace, trace_bytes, below(4) == 0 ? below(30) : AMBERCELL_CHECK_WORDS + below(3));
    same(1, table, table_bytes, trace, trace_bytes, below(4) == 0 ? below(1000) : ROOM - 8 * below(3));
}

static int agree(void)
{
    enum { TABLES = 2500, CHANGES = 8 };
    static uint8_t table[TABLE_BYTES + 64], trace[TRACE_BYTES + 64], other[TRACE_BYTES + 64];

    for (const struct workload *w = workloads; w < workloads + WORKLOADS; w++) {
        size_t room = w->finishes ? AMBERCELL_FINISH_BYTES : AMBERCELL_CHECK_WORDS;
        ambercell_answer a = same(w->finishes, w->table, w->table_bytes, w->trace, w->trace_bytes, room);
        if (a.number != w->number || a.place != w->place) {
            printf("%s: %llu at %llu\n", w->name, (unsigned long long)a.number, (unsigned long long)a.place);
            return 1;
        }
        same(w->finishes, w->table, w->table_bytes, w->trace, w->trace_bytes, 0);
    }
    for (int i = 0; i < TABLES; i++) {
        size_t table_bytes = random_table(table), trace_bytes = random_trace(table, table_bytes, trace);
        same_both(table, table_bytes, trace, trace_bytes);
        for (int j = 0; j < CHANGES; j++) {
            size_t length = trace_bytes;
            memcpy(other, trace, length);
            change(other, &length, sizeof other);
            same_both(table, table_bytes, other, length);
        }
        for (int j = 0; j < CHANGES; j++) {
            size_t length = table_bytes;
            memcpy(other, table, length);
            change(other, &length, sizeof table);
            same_both(other, length, trace, trace_bytes);
        }
    }
    printf("agree");
    for (int i = 0; i < NUMBERS; i++)
        if (i != NOT_GIVEN)
            printf(" %lu", answers[i]);
    printf("\n");
    return 0;
}

static double now(void)
{
    struct timespec t;
    clock_gettime(CLOCK_PROCESS_CPUTIME_ID, &t);
    return (double)t.tv_sec * 1e9 + (double)t.tv_nsec;
}

static int order(const void *a, const void *b)
{
    double x = *(const double *)a, y = *(const double *)b;
    return (x > y) - (x < y);
}

static double timed(const struct implementation *by, const struct workload *w, unsigned calls)
{
    static uint32_t words[AMBERCELL_CHECK_WORDS];
    static uint8_t bytes[AMBERCELL_FINISH_BYTES];
    double begin = now();
    if (w->finishes)
        for (unsigned i = 0; i < calls; i++)
            by->finish(w->table, w->table_bytes, w->trace, w->trace_bytes, bytes, sizeof bytes);
    else
        for (unsigned i = 0; i < calls; i++)
            by->check(w->table, w->table_bytes, w->trace, w->trace_bytes, words, AMBERCELL_CHECK_WORDS);
    return (now() - begin) / calls;
}

/* So many calls that the slowest takes 0.8 ms. */
static unsigned calls_of(const struct workload *w)
{
    double slowest = 1;
    for (int i = 0; i < IMPLEMENTATIONS; i++) {
        timed(&implementations[i], w, 100);
        double one = timed(&implementations[i], w, 100);
        slowest = one > slowest ? one : slowest;
    }
    return 1 + (unsigned)(8e5 / slowest);
}

/* Each round has every workload, so that the hours of a machine are shared by all: workloads are compared too. */
static void time_all(const char *layout)
{
    enum { ROUNDS = 101 };
    static double taken[WORKLOADS][IMPLEMENTATIONS][ROUNDS];
    static unsigned calls[WORKLOADS];

    for (int w = 0; w < WORKLOADS; w++)
        calls[w] = calls_of(&workloads[w]);
    for (int round = 0; round < ROUNDS; round++)
        for (int w = 0; w < WORKLOADS; w++)
            for (int i = 0; i < IMPLEMENTATIONS; i++) {
                int turn = (round + i) % IMPLEMENTATIONS;
                taken[w][turn][round] = timed(&implementations[turn], &workloads[w], calls[w]);
            }
    for (int w = 0; w < WORKLOADS; w++)
        for (int i = 0; i < IMPLEMENTATIONS; i++) {
            qsort(taken[w][i], ROUNDS, sizeof taken[w][i][0], order);
            printf("time %s %s %s %.2f\n", layout, workloads[w].name, implementations[i].name, taken[w][i][ROUNDS / 2]);
        }
}

int main(int count, char **words)
{
    make_workloads();
    if (count == 2 && strcmp(words[1], "agree") == 0)
        return agree();
    if (count == 3 && strcmp(words[1], "time") == 0) {
        time_all(words[2]);
        return 0;
    }
    fprintf(stderr, "bench agree, or bench time LAYOUT\n");
    return 2;
}
