/*
 * A litmus text becomes a table, and a run of it is finished from nothing. To build and run it, in
 * the repository:
 *
 *     bin/library
 *     cc -Iinclude -o target/litmus examples/c/litmus.c target/staticlib/libambercell.a && target/litmus
 */
#include <inttypes.h>
#include <stdio.h>
#include <string.h>

#include "ambercell.h"

static const char text[] =
    "X86 SB\n"
    "{ x=0; 0:EAX=5; }\n"
    " P0          | P1          ;\n"
    " MOV [x],$1  | MOV [y],EBX ;\n"
    " MFENCE      |             ;\n"
    " LOCK XADD [x],EAX | MOV ECX,$-1 ;\n"
    "exists (x=1)\n";

static int refused(ambercell_answer answer)
{
    if (answer.number == AMBERCELL_DONE)
        return 0;
    printf("refused %" PRIu64 " at %" PRIu64 "\n", answer.number, answer.place);
    return 1;
}

/* W0 x1: processor 0 writes 1 to x. A step without a location is its letter and processor. */
static void print_step(const uint8_t *step)
{
    uint32_t value = step[4] | (uint32_t)step[5] << 8 | (uint32_t)step[6] << 16 | (uint32_t)step[7] << 24;
    printf("%c%d", "?RWDFLUN"[step[0]], step[1]);
    if (step[0] <= AMBERCELL_STEP_DRAIN)
        printf(" %c%" PRIu32, "xyzabcde"[step[3]], value);
    printf("\n");
}

int main(void)
{
    uint8_t table[AMBERCELL_LITMUS_BYTES];
    ambercell_answer read = ambercell_litmus((const uint8_t *)text, strlen(text), table, sizeof table);
    if (refused(read))
        return 1;
    printf("%" PRIu64 " records\n", read.place);

    uint8_t steps[AMBERCELL_FINISH_BYTES];
    ambercell_answer run = ambercell_finish(table, 8 * read.place, NULL, 0, steps, sizeof steps);
    if (refused(run))
        return 1;
    for (size_t i = 0; i < run.place; i++)
        print_step(steps + 8 * i);
    return 0;
}
