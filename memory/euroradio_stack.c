/* euroradio_stack.c - see euroradio_stack.h. */
#include "euroradio_stack.h"

#include <stddef.h>

void euroradio_stack_wipe(void) {
    volatile unsigned char below[EURORADIO_STACK_WIPED];
    size_t at;
    for (at = 0; at < sizeof below; at++)
        below[at] = 0;
}
