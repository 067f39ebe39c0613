/*
 * Ambercell: can this order of steps happen on x86, and what does it leave behind?
 *
 * A table says what the code of up to four processors does: stores, loads, fences, exchanges. A
 * trace proposes an order of their steps, with the moments when a waiting write reaches memory.
 * ambercell_check says what registers and memory hold at the end, or which step cannot happen.
 * ambercell_finish writes the steps that finish a run. ambercell_litmus makes a table of a litmus
 * text.
 *
 * Tables, traces, texts and rooms may have any length and any contents: each call gets a stated answer,
 * and the answers are proved. docs/FORMAT.md says when a step is allowed; examples/c/handover.c is
 * a program to begin from.
 *
 * Link with libambercell.a, which `bin/library` writes to target/staticlib: x86-64 with
 * System V calls, as on Linux. It needs nothing else to link.
 */
#ifndef AMBERCELL_H
#define AMBERCELL_H

#include <stddef.h>
#include <stdint.h>

#ifdef __cplusplus
extern "C" {
#endif

/*
 * Tables and traces are records of 8 bytes, without a header:
 *
 *     byte     0      1          2         3         4 to 7
 *     field    kind   processor  register  location  value, lowest byte first
 *
 * Processors are 0 to 3, registers 0 EAX, 1 EBX, 2 ECX, 3 EDX, locations 0 to 7. A field that a
 * kind does not use is zero.
 */

/*
 * Kinds of a table's records, with the fields that they use. Initial records stand before all
 * instructions; a cell without one holds 0. A processor has at most 16 instructions, and runs them
 * in the table's order.
 */
enum {
    AMBERCELL_MEMORY = 1,         /* initial memory: location, value */
    AMBERCELL_REGISTER = 2,       /* initial register: processor, register, value */
    AMBERCELL_STORE = 3,          /* store a constant: processor, location, value */
    AMBERCELL_STORE_REGISTER = 4, /* store a register: processor, register, location */
    AMBERCELL_LOAD = 5,           /* load: processor, register, location */
    AMBERCELL_SET = 6,            /* set a register: processor, register, value */
    AMBERCELL_FENCE = 7,          /* fence: processor */
    AMBERCELL_EXCHANGE = 8,       /* exchange, and 9 to 11: processor, register, location */
    AMBERCELL_LOCKED_EXCHANGE = 9,
    AMBERCELL_EXCHANGE_ADD = 10,
    AMBERCELL_LOCKED_EXCHANGE_ADD = 11
};

/*
 * Kinds of a trace's records. 1 to 3 use processor, location and value, the others only the
 * processor.
 */
enum {
    AMBERCELL_STEP_READ = 1,
    AMBERCELL_STEP_WRITE = 2, /* into the processor's own buffer */
    AMBERCELL_STEP_DRAIN = 3, /* the oldest write of that buffer reaches memory */
    AMBERCELL_STEP_FENCE = 4,
    AMBERCELL_STEP_LOCK = 5,
    AMBERCELL_STEP_UNLOCK = 6,
    AMBERCELL_STEP_LOCAL = 7 /* a register is set */
};

/*
 * The numbers of an answer, each with its place. The first that applies is given: 1; then the
 * table's records in turn, each tested 2 to 7; then 8; then the trace's records in turn, each
 * tested 9, 10 and then, where the rule of its kind of step has the condition, 14, 18, 16, 17, 15;
 * then 12; last 13. 11 is not given. For a litmus text the earliest of 19, 20 and 21; then 6 or 7;
 * last 13.
 */
enum {
    AMBERCELL_DONE = 0, /* place: steps in the trace (check), steps written (finish), records (litmus) */

    AMBERCELL_TABLE_LENGTH = 1, /* table length no multiple of 8; place: whole records in it */
    /* 2 to 7 give the place of a record in the table, from 0 */
    AMBERCELL_TABLE_KIND = 2,   /* table kind unknown */
    AMBERCELL_TABLE_RANGE = 3,  /* processor, register or location too large */
    AMBERCELL_TABLE_UNUSED = 4, /* unused field not zero */
    AMBERCELL_INITIAL_LATE = 5, /* initial record after an instruction */
    AMBERCELL_CELL_TWICE = 6,   /* same cell given twice */
    AMBERCELL_SEVENTEENTH = 7,  /* seventeenth instruction of a processor */

    AMBERCELL_TRACE_LENGTH = 8, /* trace length no multiple of 8; place: whole records in it */
    /* 9, 10 and 14 to 18 give the place of a record in the trace, from 0 */
    AMBERCELL_TRACE_KIND = 9,   /* step kind unknown */
    AMBERCELL_TRACE_FIELD = 10, /* used field too large, or unused field not zero */
    AMBERCELL_UNFINISHED = 12,  /* trace ends unfinished (check only); place: steps in it */

    AMBERCELL_ROOM_TOO_SMALL = 13, /* place: words (check) or bytes (finish, litmus) needed */

    /* why a step is not allowed */
    AMBERCELL_ANOTHER_KIND = 14,     /* the program's next step is another kind, or the program has ended */
    AMBERCELL_NOT_RIGHT = 15,        /* location or value is not the right one */
    AMBERCELL_LOCK_HELD = 16,        /* another processor holds the lock */
    AMBERCELL_BUFFER_NOT_EMPTY = 17, /* own buffer not empty */
    AMBERCELL_NOTHING_WAITS = 18,    /* nothing waits to drain */

    /* 19 to 21 give the place of a byte in a litmus text, from 0 */
    AMBERCELL_TEXT_GRAMMAR = 19, /* no litmus text goes on with this token, or ends here */
    AMBERCELL_TEXT_LIMIT = 20,   /* a ninth location, or a processor above 3 */
    AMBERCELL_TEXT_CONSTANT = 21 /* a constant out of range */
};

/* How many words of a checked room are registers and memory: the word behind them is a count. */
enum { AMBERCELL_OUTCOME_WORDS = 24 };

/* Rooms that are always large enough. */
enum {
    AMBERCELL_CHECK_WORDS = 25,
    AMBERCELL_FINISH_BYTES = 2560, /* the longest finished trace has 320 steps */
    AMBERCELL_LITMUS_BYTES = 704   /* no table has more than 88 records */
};

typedef struct { uint64_t number; uint64_t place; } ambercell_answer;

/*
 * On number 0 the room holds what a call says below, and keeps its contents past that. On any
 * other number the whole room keeps its contents.
 *
 * The caller sees to this, and to nothing else:
 * - table, trace, text and room point to as much memory as is said; with a length of 0 they may be
 *   NULL;
 * - the room overlaps no other part; during the call nothing else uses the room, and nothing writes
 *   to table, trace or text.
 *
 * There is no global state and no allocation. Any number of threads may call at once, each with a
 * room of its own; they may share tables and traces.
 */

/*
 * Checks that the steps of a trace can happen and finish the run. On number 0 the first 25 words of
 * the room are the registers EAX, EBX, ECX, EDX of processor 0, then of 1, 2 and 3, then locations
 * 0 to 7, and last how many of the reads got their value from a write that waited in the reader's
 * own buffer (all others got it from memory).
 */
ambercell_answer ambercell_check(const uint8_t *table, size_t table_bytes,
                                 const uint8_t *trace, size_t trace_bytes,
                                 uint32_t *room, size_t room_words);

/*
 * Finishes a run from any allowed beginning; an empty trace is one. On number 0 the first
 * 8 * place bytes of the room are records, the steps that are missing: behind the trace they make
 * a finished one. For a trace that is finished already that is none, in any room.
 */
ambercell_answer ambercell_finish(const uint8_t *table, size_t table_bytes,
                                  const uint8_t *trace, size_t trace_bytes,
                                  uint8_t *room, size_t room_bytes);

/*
 * Makes a table of a litmus text, in the form that docs/LITMUS.md has. On number 0 the first
 * 8 * place bytes of the room are the table's records.
 */
ambercell_answer ambercell_litmus(const uint8_t *text, size_t text_bytes,
                                  uint8_t *room, size_t room_bytes);

#ifdef __cplusplus
}
#endif

#endif
