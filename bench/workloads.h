/* The calls that are timed and counted. */
#ifndef WORKLOADS_H
#define WORKLOADS_H

#include "plain.h"

enum { TABLE_BYTES = 8 * 88, TRACE_BYTES = 8 * 320 };

struct workload {
    const char *name;
    int finishes; /* ambercell_finish, else ambercell_check */
    size_t table_bytes, trace_bytes;
    uint64_t number, place; /* the answer, from document 01 */
    uint8_t table[TABLE_BYTES], trace[TRACE_BYTES];
};

enum { WORKLOADS = 35 };

extern struct workload workloads[WORKLOADS];

void make_workloads(void);

struct implementation {
    const char *name;
    check_call *check;
    finish_call *finish;
};

enum { IMPLEMENTATIONS = 3 };

extern const struct implementation implementations[IMPLEMENTATIONS];

#endif
