/*
 * euroradio_text.h - words for people: what a status of a call says, why an end was released, why a key file is refused.
 *
 *     status = euroradio_answer(&end, &settings, me, keys, keys_length, random_number, now);
 *     fprintf(stderr, "%s\n", euroradio_status_text(status));
 *     ...
 *     fprintf(stderr, "%s\n", euroradio_reason_text(deeds.reason, deeds.sub));
 *
 * Each answers a string of ASCII that is never null, lives as long as the program, and isn't to be written to. They stand
 * here whole: no library is wanted for them. The words may become others with each version; go by the constants.
 *
 * `tools/c-header --write` made this file of the library's own tables. Don't edit it.
 */
#ifndef EURORADIO_TEXT_H
#define EURORADIO_TEXT_H

#include "euroradio.h"

#ifdef __cplusplus
extern "C" {
#endif

/* Of a status that a call answers. */
static inline const char *euroradio_status_text(int32_t status) {
    switch (status) {
    case EURORADIO_OK:
        return "all went well";
    case EURORADIO_RELEASED:
        return "the end is released; nothing was sent";
    case EURORADIO_NOT_CONNECTED:
        return "the safe connection doesn't stand yet; nothing was sent";
    case EURORADIO_LENGTH:
        return "a message has 1 to 1,023 octets; nothing was sent";
    case EURORADIO_FULL:
        return "sixteen messages wait; nothing was sent";
    case EURORADIO_NONE:
        return "no message waits, no tick is wanted, the end isn't released, or it isn't connected";
    case EURORADIO_CLOSED:
        return "the handle holds no end";
    case EURORADIO_OPEN:
        return "the handle holds an end already";
    case EURORADIO_MOMENT:
        return "the moment is above 10^15";
    case EURORADIO_NUMBER:
        return "an ETCS number is not below 2^24";
    case EURORADIO_SETTING:
        return "a setting is out of its range";
    case EURORADIO_KEYS:
        return "the keys are refused";
    case EURORADIO_MEMORY:
        return "memory ran out";
    case EURORADIO_START:
        return "a start that is misused: the end was started before, or it answers";
    default:
        return "a status that this version does not have";
    }
}

/* Of a reason and a sub-reason of a release, as deeds have them: the words that euroradio_reason copies. */
static inline const char *euroradio_reason_text(uint8_t reason, uint8_t sub) {
    if (reason == EURORADIO_REASON_USER)
        return "released by the user";
    switch (EURORADIO_WHY(reason, sub)) {
    case EURORADIO_WHY_SET_UP_UNANSWERED:
        return "the set-up of the link was not answered";
    case EURORADIO_WHY_NO_PROGRESS:
        return "no progress on the link: T1 expired too often in a row";
    case EURORADIO_WHY_FRAME_ERROR:
        return "a frame that the link may not get";
    case EURORADIO_WHY_PEER_DISCONNECTED:
        return "the link was disconnected: DISC, DM or FRMR";
    case EURORADIO_WHY_LINE_ENDED:
        return "the line ended";
    case EURORADIO_WHY_LINE_FAILED:
        return "the line failed";
    case EURORADIO_WHY_LINE_STALLED:
        return "the line stalled: too much waited to be sent";
    case EURORADIO_WHY_DISCONNECT_WITHOUT_DI:
        return "a DR without the DI of its sender";
    case EURORADIO_WHY_TPDU_REFUSED:
        return "a TPDU that is faulty or may not come now";
    case EURORADIO_WHY_MESSAGE_TOO_LONG:
        return "a message above 1,032 octets";
    case EURORADIO_WHY_BLOCK_REFUSED:
        return "a faulty network block";
    case EURORADIO_WHY_NO_KEY:
        return "no key of this engine holds at the radio block centre";
    case EURORADIO_WHY_AU2_MAC_WRONG:
        return "the MAC of AU2 is wrong: the keys of both ends differ";
    case EURORADIO_WHY_AU3_MAC_WRONG:
        return "the MAC of AU3 is wrong";
    case EURORADIO_WHY_AR_MAC_WRONG:
        return "the MAC of AR is wrong";
    case EURORADIO_WHY_OTHER_RESPONDER:
        return "another radio block centre answered than was called";
    case EURORADIO_WHY_OTHER_FEATURE:
        return "the safety feature is unknown";
    case EURORADIO_WHY_DT_MAC_WRONG:
        return "the MAC of a DT is wrong";
    case EURORADIO_WHY_WRONG_DIRECTION:
        return "a SaPDU with the direction flag of its receiver";
    case EURORADIO_WHY_UNEXPECTED:
        return "a SaPDU that is not expected now";
    case EURORADIO_WHY_MALFORMED:
        return "octets that are no SaPDU";
    case EURORADIO_WHY_SET_UP_TIME_SPENT:
        return "the time for the set-up was spent";
    default:
        return "a reason that this profile does not have";
    }
}

/* Of a fault of a key file, by its kind. */
static inline const char *euroradio_key_fault_text(uint32_t kind) {
    switch (kind) {
    case EURORADIO_KEY_DOCUMENT:
        return "the text is no TOML document";
    case EURORADIO_KEY_VERSION:
        return "the version is neither 1 nor 2";
    case EURORADIO_KEY_FIELD:
        return "a field of an entry is missing or of another type";
    case EURORADIO_KEY_HEX:
        return "the KMAC of an entry is not 48 hexadecimal digits";
    case EURORADIO_KEY_NUMBER:
        return "a number of an entry is out of its range";
    case EURORADIO_KEY_RANGE:
        return "the first moment of an entry is behind its last one";
    case EURORADIO_KEY_TWICE:
        return "two entries of one pair have a moment in common";
    default:
        return "no fault";
    }
}

/* The word in a key file of the field that a fault names; no letter where it names none. */
static inline const char *euroradio_key_field_text(uint32_t field) {
    switch (field) {
    case EURORADIO_KEY_FIELD_VERSION:
        return "version";
    case EURORADIO_KEY_FIELD_KEY:
        return "key";
    case EURORADIO_KEY_FIELD_ENGINE:
        return "engine";
    case EURORADIO_KEY_FIELD_RBC:
        return "rbc";
    case EURORADIO_KEY_FIELD_KMAC:
        return "kmac";
    case EURORADIO_KEY_FIELD_FROM:
        return "from";
    case EURORADIO_KEY_FIELD_TO:
        return "to";
    default:
        return "";
    }
}

#ifdef __cplusplus
}
#endif
#endif
