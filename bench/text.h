/* The job of ambercell_litmus in plain C. bench/texts compiles text.c by gcc, under this name. */
#ifndef TEXT_H
#define TEXT_H

#include "ambercell.h"

typedef ambercell_answer litmus_call(const uint8_t *text, size_t text_bytes, uint8_t *room, size_t room_bytes);

litmus_call gcc_litmus;

#endif
