/*
 * Two workers each raise their own flag and look at the other's. Can both see the old 0?
 *
 *     worker 0: x = 1, EAX = y        worker 1: y = 1, EBX = x
 *
 * First one order of their steps is checked, and then a run finished from nothing. To build and run
 * it, in the repository:
 *
 *     bin/library
 *     cc -Iinclude -o target/handover examples/c/handover.c target/staticlib/libambercell.a && target/handover
 */
#include <inttypes.h>
#include <stdio.h>
#include <string.h>

#include "ambercell.h"

enum { EAX, EBX };
enum { X, Y };

static const uint8_t table[] = {
    AMBERCELL_STORE, 0, 0, X, 1, 0, 0, 0,
    AMBERCELL_LOAD, 0, EAX, Y, 0, 0, 0, 0,
    AMBERCELL_STORE, 1, 0, Y, 1, 0, 0, 0,
    AMBERCELL_LOAD, 1, EBX, X, 0, 0, 0, 0,
};

/* Both writes wait in their buffers while the loads read memory. */
static const uint8_t too_late[] = {
    AMBERCELL_STEP_WRITE, 0, 0, X, 1, 0, 0, 0,
    AMBERCELL_STEP_WRITE, 1, 0, Y, 1, 0, 0, 0,
    AMBERCELL_STEP_READ, 0, 0, Y, 0, 0, 0, 0,
    AMBERCELL_STEP_READ, 1, 0, X, 0, 0, 0, 0,
    AMBERCELL_STEP_DRAIN, 0, 0, X, 1, 0, 0, 0,
    AMBERCELL_STEP_DRAIN, 1, 0, Y, 1, 0, 0, 0,
};

static void print_words(const char *name, const uint32_t *words, int count)
{
    printf("%s", name);
    for (int i = 0; i < count; i++)
        printf(" %" PRIu32, words[i]);
    printf("\n");
}

static int refused(ambercell_answer answer)
{
    if (answer.number == AMBERCELL_DONE)
        return 0;
    printf("refused %" PRIu64 " at %" PRIu64 "\n", answer.number, answer.place);
    return 1;
}

static int check(const uint8_t *trace, size_t bytes)
{
    uint32_t room[AMBERCELL_CHECK_WORDS];
    ambercell_answer answer = ambercell_check(table, sizeof table, trace, bytes, room, AMBERCELL_CHECK_WORDS);
    if (refused(answer))
        return 1;
    printf("finished %" PRIu64 "\n", answer.place);
    print_words("p0", room, 4);
    print_words("p1", room + 4, 4);
    print_words("p2", room + 8, 4);
    print_words("p3", room + 12, 4);
    print_words("m", room + 16, 8);
    print_words("own", room + AMBERCELL_OUTCOME_WORDS, 1);
    return 0;
}

/* W0 x1: processor 0 writes 1 to x. A step without a location is its letter and processor. */
static void print_step(const uint8_t *step)
{
    uint32_t value = step[4] | (uint32_t)step[5] << 8 | (uint32_t)step[6] << 16 | (uint32_t)step[7] << 24;
    printf("%c%d", "?RWDFLUN"[step[0]], step[1]);
    if (step[0] <= AMBERCELL_STEP_DRAIN)
        printf(" %c%" PRIu32, "xyzabcde"[step[3]], value);
    printf("\n");
}

int main(void)
{
    printf("both too late:\n");
    if (check(too_late, sizeof too_late))
        return 1;

    uint8_t trace[AMBERCELL_FINISH_BYTES] = {0};
    uint8_t room[AMBERCELL_FINISH_BYTES];
    size_t bytes = 0;
    ambercell_answer answer = ambercell_finish(table, sizeof table, trace, bytes, room, sizeof room);
    if (refused(answer))
        return 1;
    printf("from nothing, %" PRIu64 " steps:\n", answer.place);
    for (size_t i = 0; i < answer.place; i++)
        print_step(room + 8 * i);

    memcpy(trace + bytes, room, 8 * answer.place);
    bytes += 8 * answer.place;
    return check(trace, bytes);
}
