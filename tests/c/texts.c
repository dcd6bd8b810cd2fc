/*
 * texts.c - the words of euroradio_text.h: none is null or empty where there is something to tell, those of a reason are
 * the octets that the library copies, each constant has words of its own, and a number that is none has the last ones.
 */
#include "check.h"
#include "euroradio_text.h"

#include <string.h>

/* The library's words of each reason and sub-reason are the header's. */
static void reasons(void) {
    unsigned reason, sub;
    size_t same = 0;
    for (reason = 0; reason < 256; reason++)
        for (sub = 0; sub < 256; sub++) {
            uint8_t copied[65];
            size_t length = euroradio_reason((uint8_t)reason, (uint8_t)sub, copied, sizeof copied);
            const char *text = euroradio_reason_text((uint8_t)reason, (uint8_t)sub);
            same += strlen(text) == length && memcmp(text, copied, length) == 0;
        }
    CHECK(same == 65536);
    CHECK(EURORADIO_WHY(6, 1) == EURORADIO_WHY_SET_UP_TIME_SPENT);
    CHECK(strcmp(euroradio_reason_text(3, 1), "no key of this engine holds at the radio block centre") == 0);
}

static void statuses(void) {
    static const int32_t all[] = {EURORADIO_OK,     EURORADIO_RELEASED, EURORADIO_NOT_CONNECTED, EURORADIO_LENGTH,  EURORADIO_FULL,
                                  EURORADIO_NONE,   EURORADIO_CLOSED,   EURORADIO_OPEN,          EURORADIO_MOMENT,  EURORADIO_NUMBER,
                                  EURORADIO_SETTING, EURORADIO_KEYS,    EURORADIO_MEMORY,        EURORADIO_START};
    size_t i, k;
    for (i = 0; i < sizeof all / sizeof all[0]; i++) {
        CHECK(strlen(euroradio_status_text(all[i])) > 0);
        CHECK(strcmp(euroradio_status_text(all[i]), euroradio_status_text(INT32_MIN)) != 0);
        for (k = 0; k < i; k++)
            CHECK(strcmp(euroradio_status_text(all[i]), euroradio_status_text(all[k])) != 0);
    }
    CHECK(strcmp(euroradio_status_text(INT32_MAX), euroradio_status_text(INT32_MIN)) == 0);
}

static void key_faults(void) {
    uint32_t kind, field;
    for (kind = EURORADIO_KEY_DOCUMENT; kind <= EURORADIO_KEY_TWICE; kind++)
        CHECK(strcmp(euroradio_key_fault_text(kind), euroradio_key_fault_text(0)) != 0);
    CHECK(strcmp(euroradio_key_fault_text(EURORADIO_KEY_TWICE + 1), euroradio_key_fault_text(0)) == 0);
    for (field = EURORADIO_KEY_FIELD_VERSION; field <= EURORADIO_KEY_FIELD_TO; field++)
        CHECK(strlen(euroradio_key_field_text(field)) > 0);
    CHECK(strcmp(euroradio_key_field_text(EURORADIO_KEY_FIELD_RBC), "rbc") == 0);
    CHECK(strlen(euroradio_key_field_text(0)) == 0);
    CHECK(strlen(euroradio_key_field_text(EURORADIO_KEY_FIELD_TO + 1)) == 0);
}

int main(void) {
    reasons();
    statuses();
    key_faults();
    return checked("texts");
}
