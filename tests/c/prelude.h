/* prelude.h - what the C in docs/EMBEDDING.md takes as given; tests/c-face.sh compiles it behind this. */
#include <euroradio.h>

void write_to_the_line(euroradio_end *end, size_t length);
void message_came(euroradio_end *end, uint64_t now);
int32_t octets_came(uint64_t now, const uint8_t *octets, size_t length);
