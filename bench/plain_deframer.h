/* A plain C deframer, beside which the library's is measured: one state machine, the check sequence through a table as the octets
 * come. For one source file that includes it, behind <stdint.h>, <stddef.h>. */
#define FLAG 0x7e
#define ESCAPE 0x7d
#define CAPACITY 1033

static uint16_t table[256];

static void make_table(void) {
  for (unsigned place = 0; place < 256; place++) {
    uint16_t shifted = (uint16_t)place;
    for (int bit = 0; bit < 8; bit++)
      shifted = (uint16_t)(shifted & 1 ? shifted >> 1 ^ 0x8408 : shifted >> 1);
    table[place] = shifted;
  }
}

enum found { NOTHING, FRAME, BAD_FCS, TOO_SHORT, TOO_LONG, ABORTED };

struct deframer {
  int begun;
  int escaping;
  size_t length;
  uint16_t check;
  uint8_t octets[CAPACITY];
};

static void restart(struct deframer *d) {
  d->begun = 1;
  d->escaping = 0;
  d->length = 0;
  d->check = 0xffff;
}

static enum found close_frame(struct deframer *d) {
  enum found found;
  if (d->escaping)
    found = ABORTED;
  else if (d->length == 0)
    found = NOTHING;
  else if (d->length == CAPACITY)
    found = TOO_LONG;
  else if (d->length < 4)
    found = TOO_SHORT;
  else
    found = d->check == 0xf0b8 ? FRAME : BAD_FCS;
  restart(d);
  return found;
}

static size_t feed(struct deframer *d, const uint8_t *piece, size_t length, enum found *found) {
  for (size_t i = 0; i < length; i++) {
    uint8_t octet = piece[i];
    if (octet == FLAG) {
      *found = close_frame(d);
      if (*found != NOTHING)
        return i + 1;
      continue;
    }
    if (!d->begun)
      continue;
    if (d->escaping) {
      d->escaping = 0;
      octet ^= 0x20;
    } else if (octet == ESCAPE) {
      d->escaping = 1;
      continue;
    }
    if (d->length < CAPACITY) {
      d->octets[d->length++] = octet;
      d->check = (uint16_t)(d->check >> 8 ^ table[(d->check ^ octet) & 0xff]);
    }
  }
  *found = NOTHING;
  return length;
}
