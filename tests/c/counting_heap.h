/* counting_heap.h - the library's heap over malloc, with counts, and with a call that fails where a test wants it. */
#ifndef COUNTING_HEAP_H
#define COUNTING_HEAP_H

#include <stddef.h>

extern size_t heap_calls;   /* calls that took memory since the last reset, failed ones too */
extern size_t heap_blocks;  /* blocks that are taken now */
extern size_t heap_octets;  /* .. and their octets */
extern size_t heap_failing; /* the call that fails, counted from 1 behind the last reset; 0: none */

/* Counts calls from 0 again, and has this one fail. */
void heap_reset(size_t failing);

#endif
