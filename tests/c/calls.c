/*
 * Calls from C, with answers worked out by hand from document 01. Each is compared in number, place
 * and every word or byte of the room and around it.
 */
#include <inttypes.h>
#include <stdio.h>
#include <string.h>

#include "ambercell.h"

enum { EAX, EBX };
enum { X, Y };
enum { AROUND = 16, WORDS = AMBERCELL_CHECK_WORDS, BYTES = AMBERCELL_FINISH_BYTES };

typedef struct { const uint8_t *bytes; size_t length; } file;

/* A record, a step of a trace, and a file of such; NONE has no memory at all. */
#define RECORD(kind, p, reg, loc, v) kind, p, reg, loc, (v) & 255, (v) >> 8 & 255, (v) >> 16 & 255, (v) >> 24 & 255
#define W(p, loc, v) RECORD(AMBERCELL_STEP_WRITE, p, 0, loc, v)
#define R(p, loc, v) RECORD(AMBERCELL_STEP_READ, p, 0, loc, v)
#define D(p, loc, v) RECORD(AMBERCELL_STEP_DRAIN, p, 0, loc, v)
#define F(p) RECORD(AMBERCELL_STEP_FENCE, p, 0, 0, 0)
#define L(p) RECORD(AMBERCELL_STEP_LOCK, p, 0, 0, 0)
#define U(p) RECORD(AMBERCELL_STEP_UNLOCK, p, 0, 0, 0)
#define N(p) RECORD(AMBERCELL_STEP_LOCAL, p, 0, 0, 0)
#define FENCE(p) RECORD(AMBERCELL_FENCE, p, 0, 0, 0)
#define FILE_OF(...) ((file){(const uint8_t[]){__VA_ARGS__}, sizeof((const uint8_t[]){__VA_ARGS__})})
#define NONE ((file){NULL, 0})

static int calls, wrong;

static void compare(const char *name, ambercell_answer got, uint64_t number, uint64_t place, int same_room)
{
    calls++;
    if (got.number == number && got.place == place && same_room)
        return;
    wrong++;
    printf("calls: %s: %" PRIu64 " at %" PRIu64 ", not %" PRIu64 " at %" PRIu64 "%s\n", name, got.number, got.place,
           number, place, same_room ? "" : ", and another room");
}

/* In a room of so many words, which holds the result afterwards, if there is one. */
static void check(const char *name, file table, file trace, size_t words, uint64_t number, uint64_t place,
                  const uint32_t *result)
{
    uint32_t memory[AROUND + WORDS + AROUND], expected[AROUND + WORDS + AROUND];
    for (size_t i = 0; i < AROUND + WORDS + AROUND; i++)
        memory[i] = expected[i] = 1000000 + (uint32_t)i;
    if (result)
        memcpy(expected + AROUND, result, WORDS * sizeof *result);
    ambercell_answer got = ambercell_check(table.bytes, table.length, trace.bytes, trace.length,
                                           words ? memory + AROUND : NULL, words);
    compare(name, got, number, place, memcmp(memory, expected, sizeof memory) == 0);
}

/* In a room of so many bytes, which begins with these steps afterwards. */
static void finish(const char *name, file table, file trace, size_t bytes, uint64_t number, uint64_t place, file steps)
{
    uint8_t memory[AROUND + BYTES + AROUND], expected[AROUND + BYTES + AROUND];
    for (size_t i = 0; i < AROUND + BYTES + AROUND; i++)
        memory[i] = expected[i] = (uint8_t)(200 + i % 50);
    if (steps.length)
        memcpy(expected + AROUND, steps.bytes, steps.length);
    ambercell_answer got = ambercell_finish(table.bytes, table.length, trace.bytes, trace.length,
                                            bytes ? memory + AROUND : NULL, bytes);
    compare(name, got, number, place, memcmp(memory, expected, sizeof memory) == 0);
}

static void both_refuse(const char *name, file table, file trace, uint64_t number, uint64_t place)
{
    check(name, table, trace, WORDS, number, place, NULL);
    finish(name, table, trace, BYTES, number, place, NONE);
}

static void table_refusals(void)
{
    uint8_t fences[17 * 8] = {0};
    for (size_t i = 0; i < 17; i++)
        fences[8 * i] = AMBERCELL_FENCE;
    file seventeen = {fences, sizeof fences};

    both_refuse("table of 7 bytes", FILE_OF(7, 0, 0, 0, 0, 0, 0), NONE, AMBERCELL_TABLE_LENGTH, 0);
    both_refuse("table of 9 bytes", FILE_OF(FENCE(0), 7), NONE, AMBERCELL_TABLE_LENGTH, 1);
    both_refuse("table kind 0", FILE_OF(RECORD(0, 0, 0, 0, 0)), NONE, AMBERCELL_TABLE_KIND, 0);
    both_refuse("table kind 12", FILE_OF(FENCE(0), RECORD(12, 0, 0, 0, 0)), NONE, AMBERCELL_TABLE_KIND, 1);
    both_refuse("location 8", FILE_OF(RECORD(AMBERCELL_STORE, 0, 0, 8, 1)), NONE, AMBERCELL_TABLE_RANGE, 0);
    both_refuse("fence at x1", FILE_OF(RECORD(AMBERCELL_FENCE, 0, 0, X, 1)), NONE, AMBERCELL_TABLE_UNUSED, 0);
    both_refuse("late initial", FILE_OF(FENCE(0), RECORD(AMBERCELL_MEMORY, 0, 0, X, 1)), NONE, AMBERCELL_INITIAL_LATE, 1);
    both_refuse("x twice", FILE_OF(RECORD(AMBERCELL_MEMORY, 0, 0, X, 1), RECORD(AMBERCELL_MEMORY, 0, 0, X, 1)), NONE,
                AMBERCELL_CELL_TWICE, 1);
    both_refuse("seventeen fences", seventeen, NONE, AMBERCELL_SEVENTEENTH, 16);
}

/* P0 stores x1, loads EAX from y; P1 stores y1, loads EBX from x. */
#define SB \
    FILE_OF(RECORD(AMBERCELL_STORE, 0, 0, X, 1), RECORD(AMBERCELL_LOAD, 0, EAX, Y, 0), \
            RECORD(AMBERCELL_STORE, 1, 0, Y, 1), RECORD(AMBERCELL_LOAD, 1, EBX, X, 0))
/* Two locked exchange-and-adds on x. */
#define TWO_LOCKED \
    FILE_OF(RECORD(AMBERCELL_LOCKED_EXCHANGE_ADD, 0, EAX, X, 0), RECORD(AMBERCELL_LOCKED_EXCHANGE_ADD, 1, EAX, X, 0))
#define N6 \
    FILE_OF(RECORD(AMBERCELL_STORE, 0, 0, X, 1), RECORD(AMBERCELL_LOAD, 0, EAX, X, 0), RECORD(AMBERCELL_LOAD, 0, EBX, Y, 0), \
            RECORD(AMBERCELL_STORE, 1, 0, Y, 2), RECORD(AMBERCELL_STORE, 1, 0, X, 2))
#define LINE_1 FILE_OF(W(0, X, 1), W(1, Y, 1), R(0, Y, 0), R(1, X, 0), D(0, X, 1), D(1, Y, 1))
#define LINE_2 FILE_OF(W(0, X, 1), W(1, Y, 1), R(0, Y, 1), R(1, X, 0), D(0, X, 1), D(1, Y, 1))
#define LINE_3 FILE_OF(W(0, X, 1), W(1, Y, 1), R(0, Y, 0), R(1, X, 0), D(0, X, 1))
#define LINE_4 FILE_OF(W(0, X, 1), D(0, X, 1), R(0, Y, 0), W(1, Y, 1), D(1, Y, 1), R(1, X, 1))
#define LINE_6 FILE_OF(W(1, Y, 2), W(0, X, 1), R(0, X, 1), R(0, Y, 0), W(1, X, 2), D(1, Y, 2), D(1, X, 2), D(0, X, 1))

static void trace_refusals(void)
{
    both_refuse("trace of 7 bytes", SB, FILE_OF(2, 0, 0, 0, 1, 0, 0), AMBERCELL_TRACE_LENGTH, 0);
    both_refuse("trace of 9 bytes", SB, FILE_OF(W(0, X, 1), 0), AMBERCELL_TRACE_LENGTH, 1);
    both_refuse("step kind 0", SB, FILE_OF(W(0, X, 1), RECORD(0, 0, 0, 0, 0)), AMBERCELL_TRACE_KIND, 1);
    both_refuse("step kind 8", SB, FILE_OF(RECORD(8, 0, 0, 0, 0)), AMBERCELL_TRACE_KIND, 0);
    both_refuse("processor 4", SB, FILE_OF(W(0, X, 1), W(4, X, 1)), AMBERCELL_TRACE_FIELD, 1);
    both_refuse("register of a step", SB, FILE_OF(RECORD(AMBERCELL_STEP_WRITE, 0, 1, X, 1)), AMBERCELL_TRACE_FIELD, 0);
    both_refuse("line 2", SB, LINE_2, AMBERCELL_NOT_RIGHT, 2);
    both_refuse("read before the write", SB, FILE_OF(R(0, Y, 0)), AMBERCELL_ANOTHER_KIND, 0);
    both_refuse("drain of nothing", SB, FILE_OF(D(0, X, 1)), AMBERCELL_NOTHING_WAITS, 0);
    both_refuse("fence while a write waits", FILE_OF(RECORD(AMBERCELL_STORE, 0, 0, X, 1), FENCE(0)),
                FILE_OF(W(0, X, 1), F(0)), AMBERCELL_BUFFER_NOT_EMPTY, 1);
    both_refuse("line 10", TWO_LOCKED, FILE_OF(L(0), L(1)), AMBERCELL_LOCK_HELD, 1);
    check("line 3", SB, LINE_3, WORDS, AMBERCELL_UNFINISHED, 5, NULL);
    check("line 3 in no room", SB, LINE_3, 0, AMBERCELL_UNFINISHED, 5, NULL);
}

static void checks(void)
{
    const uint32_t line_1[WORDS] = {[16 + X] = 1, [16 + Y] = 1};
    const uint32_t line_4[WORDS] = {[4 + EBX] = 1, [16 + X] = 1, [16 + Y] = 1};
    /* its read of x is served by its own waiting write */
    const uint32_t line_6[WORDS] = {[0 + EAX] = 1, [16 + X] = 1, [16 + Y] = 2, [AMBERCELL_OUTCOME_WORDS] = 1};
    const uint32_t zeros[WORDS] = {0};

    check("line 1 in no room", SB, LINE_1, 0, AMBERCELL_ROOM_TOO_SMALL, 25, NULL);
    check("line 1 in 24 words", SB, LINE_1, 24, AMBERCELL_ROOM_TOO_SMALL, 25, NULL);
    check("line 1 in 25 words", SB, LINE_1, 25, AMBERCELL_DONE, 6, line_1);
    check("line 1 in 26 words", SB, LINE_1, 26, AMBERCELL_DONE, 6, line_1);
    check("line 4", SB, LINE_4, WORDS, AMBERCELL_DONE, 6, line_4);
    check("line 6", N6, LINE_6, WORDS, AMBERCELL_DONE, 8, line_6);
    check("nothing", NONE, NONE, WORDS, AMBERCELL_DONE, 0, zeros);
    check("nothing in no room", NONE, NONE, 0, AMBERCELL_ROOM_TOO_SMALL, 25, NULL);
}

static void finishes(void)
{
    finish("line 4 in no room", SB, NONE, 0, AMBERCELL_ROOM_TOO_SMALL, 48, NONE);
    finish("line 4 in 47 bytes", SB, NONE, 47, AMBERCELL_ROOM_TOO_SMALL, 48, NONE);
    finish("line 4 in 48 bytes", SB, NONE, 48, AMBERCELL_DONE, 6, LINE_4);
    finish("line 4 in 49 bytes", SB, NONE, 49, AMBERCELL_DONE, 6, LINE_4);
    finish("half of line 1", SB, FILE_OF(W(0, X, 1), W(1, Y, 1), R(0, Y, 0)), BYTES, AMBERCELL_DONE, 3,
           FILE_OF(D(0, X, 1), D(1, Y, 1), R(1, X, 1)));
    finish("line 3", SB, LINE_3, 8, AMBERCELL_DONE, 1, FILE_OF(D(1, Y, 1)));
    finish("line 1 in no room", SB, LINE_1, 0, AMBERCELL_DONE, 0, NONE);
    finish("line 1", SB, LINE_1, BYTES, AMBERCELL_DONE, 0, NONE);
    finish("nothing in no room", NONE, NONE, 0, AMBERCELL_DONE, 0, NONE);

    /* P0 stores a value of four different bytes; P1's locked exchange of EAX, at first 5, holds the lock */
    finish("the holder moves first",
           FILE_OF(RECORD(AMBERCELL_REGISTER, 1, EAX, 0, 5), RECORD(AMBERCELL_STORE, 0, 0, X, 0x04030201),
                   RECORD(AMBERCELL_LOCKED_EXCHANGE, 1, EAX, Y, 0)),
           FILE_OF(L(1)), BYTES, AMBERCELL_DONE, 6,
           FILE_OF(R(1, Y, 0), W(1, Y, 5), D(1, Y, 5), U(1), W(0, X, 0x04030201), D(0, X, 0x04030201)));
}

/* Every kind of record and of step, a line of steps for each instruction, checked afterwards. */
static void kinds(void)
{
    file table = FILE_OF(RECORD(AMBERCELL_MEMORY, 0, 0, Y, 100), RECORD(AMBERCELL_REGISTER, 0, EAX, 0, 5),
                         RECORD(AMBERCELL_STORE, 0, 0, X, 1), RECORD(AMBERCELL_STORE_REGISTER, 0, EAX, X, 0),
                         RECORD(AMBERCELL_LOAD, 0, EBX, Y, 0), RECORD(AMBERCELL_SET, 0, EAX, 0, 2), FENCE(0),
                         RECORD(AMBERCELL_EXCHANGE, 0, EAX, X, 0), RECORD(AMBERCELL_LOCKED_EXCHANGE, 0, EBX, X, 0),
                         RECORD(AMBERCELL_EXCHANGE_ADD, 0, EAX, X, 0),
                         RECORD(AMBERCELL_LOCKED_EXCHANGE_ADD, 0, EBX, X, 0));
    file steps = FILE_OF(W(0, X, 1), D(0, X, 1),
                         W(0, X, 5), D(0, X, 5),
                         R(0, Y, 100),
                         N(0),
                         F(0),
                         R(0, X, 5), W(0, X, 2), D(0, X, 2),
                         L(0), R(0, X, 2), W(0, X, 100), D(0, X, 100), U(0),
                         R(0, X, 100), W(0, X, 105), D(0, X, 105),
                         L(0), R(0, X, 105), W(0, X, 107), D(0, X, 107), U(0));
    const uint32_t result[WORDS] = {[EAX] = 100, [EBX] = 105, [16 + X] = 107, [16 + Y] = 100};

    finish("every kind", table, NONE, BYTES, AMBERCELL_DONE, 23, steps);
    check("every kind, checked", table, steps, WORDS, AMBERCELL_DONE, 23, result);
}

/* Four programs of sixteen locked exchanges, one after the other: 64 times 5 steps, checked afterwards. */
static void longest(void)
{
    uint8_t bytes[64 * 8] = {0}, steps[BYTES];
    for (size_t i = 0; i < 64; i++) {
        bytes[8 * i] = AMBERCELL_LOCKED_EXCHANGE;
        bytes[8 * i + 1] = (uint8_t)(i % 4);
        uint8_t p = (uint8_t)(i / 16);
        memcpy(steps + 40 * i, FILE_OF(L(p), R(p, X, 0), W(p, X, 0), D(p, X, 0), U(p)).bytes, 40);
    }
    file table = {bytes, sizeof bytes}, trace = {steps, sizeof steps};
    const uint32_t zeros[WORDS] = {0};

    finish("longest in a byte less", table, NONE, BYTES - 1, AMBERCELL_ROOM_TOO_SMALL, BYTES, NONE);
    finish("longest", table, NONE, BYTES, AMBERCELL_DONE, 320, trace);
    check("longest, checked", table, trace, WORDS, AMBERCELL_DONE, 320, zeros);
}

/* In a room of so many bytes, which begins with these records afterwards. */
static void litmus(const char *name, const char *text, size_t bytes, uint64_t number, uint64_t place, file records)
{
    uint8_t memory[AROUND + BYTES + AROUND], expected[AROUND + BYTES + AROUND];
    for (size_t i = 0; i < AROUND + BYTES + AROUND; i++)
        memory[i] = expected[i] = (uint8_t)(200 + i % 50);
    if (records.length)
        memcpy(expected + AROUND, records.bytes, records.length);
    ambercell_answer got = ambercell_litmus((const uint8_t *)text, text ? strlen(text) : 0,
                                            bytes ? memory + AROUND : NULL, bytes);
    compare(name, got, number, place, memcmp(memory, expected, sizeof memory) == 0);
}

static void texts(void)
{
    const char *small = "X86 SB\n{ x=0; 0:EAX=5; }\n P0          | P1          ;\n MOV [x],$1  | MOV [y],EBX ;\n"
                        " MFENCE      |             ;\n LOCK XADD [x],EAX | MOV ECX,$-1 ;\nexists (x=1)\n";
    file seven = FILE_OF(RECORD(AMBERCELL_MEMORY, 0, 0, X, 0), RECORD(AMBERCELL_REGISTER, 0, EAX, 0, 5),
                         RECORD(AMBERCELL_STORE, 0, 0, X, 1), RECORD(AMBERCELL_STORE_REGISTER, 1, EBX, Y, 0), FENCE(0),
                         RECORD(AMBERCELL_LOCKED_EXCHANGE_ADD, 0, EAX, X, 0), RECORD(AMBERCELL_SET, 1, 2, 0, 0xffffffffu));

    litmus("document 01's small text", small, seven.length, AMBERCELL_DONE, 7, seven);
    litmus("the same in a byte less", small, seven.length - 1, AMBERCELL_ROOM_TOO_SMALL, seven.length, NONE);
    litmus("no text", NULL, AMBERCELL_LITMUS_BYTES, AMBERCELL_TEXT_GRAMMAR, 0, NONE);
    litmus("no records, no room", "X86 t{}P0;exists", 0, AMBERCELL_DONE, 0, NONE);
    litmus("a text that ends too early", "X86 t{}P0;", BYTES, AMBERCELL_TEXT_GRAMMAR, 10, NONE);
    litmus("processor 4", "X86 t{4:EAX=1;}P0;exists", BYTES, AMBERCELL_TEXT_LIMIT, 6, NONE);
    litmus("2^32", "X86 t{x=4294967296;}P0;exists", BYTES, AMBERCELL_TEXT_CONSTANT, 8, NONE);
    litmus("a cell twice", "X86 t{x=0;x=0;}P0;exists", BYTES, AMBERCELL_CELL_TWICE, 1, NONE);
}

int main(void)
{
    table_refusals();
    trace_refusals();
    checks();
    finishes();
    kinds();
    longest();
    texts();
    printf("%d calls, %d wrong\n", calls, wrong);
    return wrong != 0;
}
