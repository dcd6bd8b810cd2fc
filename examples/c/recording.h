/*
 * recording.h - prints what an end is given and what comes of it, line by line, in the format that `euroradio replay`
 * takes: its answer to the recording is the recording again, if the end did what the model of an end does. A log in
 * this form, kept in the field, can be checked afterwards.
 */
#ifndef RECORDING_H
#define RECORDING_H

#include "euroradio.h"

/* The first line: the settings, which are of modulo 8. */
void recording_header(const euroradio_settings *settings);

/* An event at the connection `conn`: `call ..`, `answer ..`, `tick`, `take`, `release ..`, `ended`, `fault`, `stalled`.
 * Its words are made as printf does. */
void recording_event(uint64_t moment, uint64_t conn, const char *words, ...);

/* An event with octets: the word is `octets` or `send`. */
void recording_octets(uint64_t moment, uint64_t conn, const char *word, const uint8_t *octets, size_t length);

/* What any event but a take came to, and a send only where it was OK. Behind that event, before the next. */
void recording_deeds(uint64_t conn, euroradio_end *end, const euroradio_deeds *deeds);

/* What a send of so many octets came to that answered `status`. */
void recording_sent(uint64_t conn, euroradio_end *end, int32_t status, size_t length, const euroradio_deeds *deeds);

/* What a take came to. */
void recording_taken(uint64_t conn, euroradio_end *end, int32_t status, const euroradio_deeds *deeds);

#endif
