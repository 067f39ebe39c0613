/* Counts executed instructions: each call runs with the processor's trap flag set, so that every instruction raises SIGTRAP. bench/run puts
 * the code of the three implementations into sections of their own, whose ends the linker names, and wraps memcpy and memset.
 *
 * A call prints "count WORKLOAD STEPS IMPLEMENTATION OWN LIBC MEMCPYS MEMCPY_BYTES MEMSETS MEMSET_BYTES".
 *   count                    every workload
 *   count WORKLOAD FROM TO   its trace cut after FROM to TO steps
 *   count WORKLOAD           the library's call of it, then "at WORKLOAD ADDRESS TIMES" for each address of the library that ran */
#define _GNU_SOURCE
#include "workloads.h"

#include <signal.h>
#include <stdio.h>
#include <stdlib.h>
#include <string.h>
#include <ucontext.h>

extern const char __start_ambercell_text[], __stop_ambercell_text[];
extern const char __start_gcc_text[], __stop_gcc_text[];
extern const char __start_clang_text[], __stop_clang_text[];
extern const char __start_wrapper_text[], __stop_wrapper_text[];

#define WRAPPER __attribute__((section("wrapper_text"), noinline))

static volatile unsigned long memcpys, memcpy_bytes, memsets, memset_bytes;

void *__real_memcpy(void *to, const void *from, size_t bytes);
void *__real_memset(void *to, int byte, size_t bytes);
void *__wrap_memcpy(void *to, const void *from, size_t bytes);
void *__wrap_memset(void *to, int byte, size_t bytes);

WRAPPER void *__wrap_memcpy(void *to, const void *from, size_t bytes)
{
    memcpys++;
    memcpy_bytes += bytes;
    return __real_memcpy(to, from, bytes);
}

WRAPPER void *__wrap_memset(void *to, int byte, size_t bytes)
{
    memsets++;
    memset_bytes += bytes;
    return __real_memset(to, byte, bytes);
}

enum { TEXT = 1 << 16 };

static volatile unsigned long own, libc, times[TEXT];

static int within(uintptr_t at, const char *start, const char *stop) { return at >= (uintptr_t)start && at < (uintptr_t)stop; }

static void stepped(int signal, siginfo_t *information, void *context)
{
    uintptr_t at = (uintptr_t)((ucontext_t *)context)->uc_mcontext.gregs[REG_RIP];
    (void)signal;
    (void)information;
    if (within(at, __start_ambercell_text, __stop_ambercell_text)) {
        uintptr_t offset = at - (uintptr_t)__start_ambercell_text;
        own++;
        if (offset < TEXT)
            times[offset]++;
    } else if (within(at, __start_gcc_text, __stop_gcc_text) || within(at, __start_clang_text, __stop_clang_text))
        own++;
    else if (!within(at, __start_wrapper_text, __stop_wrapper_text))
        libc++;
}

WRAPPER static void trapped(const struct implementation *by, const struct workload *w, uint8_t *room)
{
    __asm__ volatile("pushfq\n\torq $0x100, (%%rsp)\n\tpopfq" ::: "memory", "cc");
    if (w->finishes)
        by->finish(w->table, w->table_bytes, w->trace, w->trace_bytes, room, AMBERCELL_FINISH_BYTES);
    else
        by->check(w->table, w->table_bytes, w->trace, w->trace_bytes, (uint32_t *)(void *)room, AMBERCELL_CHECK_WORDS);
    __asm__ volatile("pushfq\n\tandq $~0x100, (%%rsp)\n\tpopfq" ::: "memory", "cc");
}

static void count(const struct implementation *by, const struct workload *w)
{
    static _Alignas(8) uint8_t room[AMBERCELL_FINISH_BYTES];
    own = libc = memcpys = memcpy_bytes = memsets = memset_bytes = 0;
    trapped(by, w, room);
    printf("count %s %zu %s %lu %lu %lu %lu %lu %lu\n", w->name, w->trace_bytes / 8, by->name, own, libc, memcpys, memcpy_bytes, memsets,
           memset_bytes);
}

static void cut(const struct workload *w, size_t from, size_t to)
{
    static struct workload shorter;
    shorter = *w;
    for (size_t steps = from; steps <= to; steps++)
        for (int i = 0; i < IMPLEMENTATIONS; i++) {
            shorter.trace_bytes = 8 * steps;
            count(&implementations[i], &shorter);
        }
}

int main(int words, char **word)
{
    struct sigaction action = {.sa_sigaction = stepped, .sa_flags = SA_SIGINFO};
    sigaction(SIGTRAP, &action, NULL);
    make_workloads();
    for (const struct workload *w = workloads; w < workloads + WORKLOADS; w++)
        if (words == 1)
            for (int i = 0; i < IMPLEMENTATIONS; i++)
                count(&implementations[i], w);
        else if (strcmp(w->name, word[1]) == 0 && words == 4)
            cut(w, strtoul(word[2], NULL, 10), strtoul(word[3], NULL, 10));
        else if (strcmp(w->name, word[1]) == 0) {
            count(&implementations[0], w);
            for (unsigned i = 0; i < TEXT; i++)
                if (times[i] > 0)
                    printf("at %s %x %lu\n", w->name, i, times[i]);
        }
    return 0;
}
