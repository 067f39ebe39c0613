/* The job of ambercell_check and ambercell_finish in plain C. bench/run compiles plain.c by gcc and by clang, under these names. */
#ifndef PLAIN_H
#define PLAIN_H

#include "ambercell.h"

typedef ambercell_answer check_call(const uint8_t *table, size_t table_bytes, const uint8_t *trace, size_t trace_bytes,
                                    uint32_t *room, size_t room_words);
typedef ambercell_answer finish_call(const uint8_t *table, size_t table_bytes, const uint8_t *trace, size_t trace_bytes,
                                     uint8_t *room, size_t room_bytes);

check_call gcc_check, clang_check;
finish_call gcc_finish, clang_finish;

#endif
