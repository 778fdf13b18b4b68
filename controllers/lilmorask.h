/* Lilmorask for C: ink cards kept in step between a press and a plant server. docs/LINKING.md says how to use it.
 *
 * A side is kept in bytes that the caller lends: its image. Every call reads the image, works, and leaves the image
 * of the side after it. A call's number is 0 where it was done, else one of LIL_*. Beside a number that is not 0
 * nothing that was lent has changed.
 *
 * Rules for callers; nothing checks them, and docs/LINKING.md has the reasons:
 * - No pointer is NULL, also beside a length of 0; the bytes that it is lent with are there.
 * - What is lent to be written overlaps nothing else that is lent to the same call.
 * - One call at a time on one image.
 * - LIL_PRESS_STACK or LIL_SERVER_STACK bytes of stack are free.
 * - The image is stored before the answer is sent, and before a person is told.
 * - After boot .._gives_up comes first.
 */
#ifndef LILMORASK_H
#define LILMORASK_H
#include <stddef.h>
#include <stdint.h>
#ifdef __cplusplus
extern "C" {
#endif

/* A length: 64 bits, also where a size_t has 32. */
#if SIZE_MAX == UINT64_MAX
typedef size_t lil_size;
#else
typedef uint64_t lil_size;
#endif

#define LIL_PRESS_IMAGE 1568   /* bytes of an image: exactly so many are lent */
#define LIL_SERVER_IMAGE 1312
#define LIL_SLOT_TAIL 9        /* what a slot has beside its image: generation, sum, mark */
#define LIL_SLOTS(image) (2 * ((image) + LIL_SLOT_TAIL))
#define LIL_MESSAGE 32768      /* the longest message; lend as many for an answer, and 9 never comes */
#define LIL_TEXT 24            /* the longest text */
#define LIL_PLACES 32
#define LIL_PRESS_STACK 65536
#define LIL_SERVER_STACK 81920

enum lil_number {
    LIL_DONE = 0,
    LIL_OPEN = 1,         /* an edit or a start while a session is open */
    LIL_SPENT = 2,        /* no place or number is left */
    LIL_NO_CARD = 3,
    LIL_TEXT_RULE = 4,    /* text not allowed; or a press made fresh as station 0 */
    LIL_OTHER = 5,        /* not the package awaited */
    LIL_OLD_SESSION = 6,
    LIL_NO_MESSAGE = 7,   /* not in the written form */
    LIL_RULES = 8,        /* a package against the rules */
    LIL_NO_ROOM = 9,      /* the answer is longer than out */
    LIL_NO_IMAGE = 10,    /* not an image of this side, of this form and length, well-formed, with its sum; */
                          /* nothing stored in the slots */
    LIL_DAMAGED = 11      /* a slot that is marked as whole has another sum: do not go on with the other one */
};

/* ---- the press: liblilmorask_press.a */

/* a press that has never met a server; its people's edits bear the station, 1 to 255 */
uint32_t lil_press_fresh(uint8_t *image, lil_size n, uint8_t station);
/* whether these bytes are an image */
uint32_t lil_press_check(const uint8_t *image, lil_size n);
/* the number of the form that an image of a press has; 0: not a press's */
uint32_t lil_press_form(const uint8_t *bytes, lil_size n);

/* edits by people; number: the new card's LUID */
uint32_t lil_press_add(uint8_t *image, lil_size n, const uint8_t *text, lil_size length, uint32_t *number);
uint32_t lil_press_edit(uint8_t *image, lil_size n, uint32_t number, const uint8_t *text, lil_size length);
uint32_t lil_press_delete(uint8_t *image, lil_size n, uint32_t number);

/* a session: the message to send stands in out; written 0 after Pkg 6: there is none, and the session is over */
uint32_t lil_press_start(uint8_t *image, lil_size n, uint8_t *out, lil_size room, lil_size *written);
uint32_t lil_press_takes(uint8_t *image, lil_size n, const uint8_t *message, lil_size length,
                         uint8_t *out, lil_size room, lil_size *written);
/* the session is over; a closed press stays as it is */
uint32_t lil_press_gives_up(uint8_t *image, lil_size n);

/* the numbers of a card, by their places */
enum lil_card_number {
    LIL_CARD_LUID,
    LIL_CARD_FP,
    LIL_CARD_REPORT_GUID,
    LIL_CARD_REPORT_LUID,
    LIL_CARD_REPORT_FP,
    LIL_CARD_REPORTED,    /* 1 where the card carries a report */
    LIL_CARD_MARK,        /* one of lil_card_mark */
    LIL_CARD_STATION,
    LIL_CARD_LENGTH,      /* of the text */
    LIL_CARD_NUMBERS      /* how many they are: so many are lent */
};
enum lil_card_mark { LIL_CARD_CLEAN = 0, LIL_CARD_ADDED = 1, LIL_CARD_CHANGED = 2, LIL_CARD_DELETED = 3 };
/* what stands at a place, 0 to LIL_PLACES - 1; 3: nothing does. The text has 0 after its length */
uint32_t lil_press_card(const uint8_t *image, lil_size n, uint32_t place,
                        uint32_t numbers[LIL_CARD_NUMBERS], uint8_t text[LIL_TEXT]);

/* the numbers of a message, by their places */
enum lil_changes_number {
    LIL_CHANGES_PACKAGE,
    LIL_CHANGES_COUNTED,  /* 1 where the package has a number of changes */
    LIL_CHANGES_CHANGES,
    LIL_CHANGES_NUMBERS
};
/* for a panel: which package a message is, sent or received, and how many changes it has; 7: no message */
uint32_t lil_message_changes(const uint8_t *message, lil_size n, uint32_t numbers[LIL_CHANGES_NUMBERS]);

/* ---- the server: liblilmorask_server.a */

uint32_t lil_server_fresh(uint8_t *image, lil_size n);
uint32_t lil_server_check(const uint8_t *image, lil_size n);
uint32_t lil_server_form(const uint8_t *bytes, lil_size n);

/* edits by people; number: the new record's GUID */
uint32_t lil_server_add(uint8_t *image, lil_size n, const uint8_t *text, lil_size length, uint32_t *number);
uint32_t lil_server_edit(uint8_t *image, lil_size n, uint32_t number, const uint8_t *text, lil_size length);
uint32_t lil_server_delete(uint8_t *image, lil_size n, uint32_t number);

uint32_t lil_server_takes(uint8_t *image, lil_size n, const uint8_t *message, lil_size length,
                          uint8_t *out, lil_size room, lil_size *written);
uint32_t lil_server_gives_up(uint8_t *image, lil_size n);
/* two edits of one card: 0 the press's wins, else the server's */
uint32_t lil_server_goes_by(uint8_t *image, lil_size n, uint8_t rule);

/* the numbers of a record, by their places */
enum lil_record_number {
    LIL_RECORD_GUID,
    LIL_RECORD_LUID,      /* 0: none */
    LIL_RECORD_KNOWN,
    LIL_RECORD_MARK,      /* one of lil_record_mark */
    LIL_RECORD_STATION,
    LIL_RECORD_LENGTH,    /* of the text */
    LIL_RECORD_NUMBERS
};
enum lil_record_mark { LIL_RECORD_CLEAN = 0, LIL_RECORD_DIRTY = 1, LIL_RECORD_OFFERED = 2, LIL_RECORD_DELETED = 3 };
/* what stands at a place, as lil_press_card gives it */
uint32_t lil_server_record(const uint8_t *image, lil_size n, uint32_t place,
                           uint32_t numbers[LIL_RECORD_NUMBERS], uint8_t text[LIL_TEXT]);

/* ---- a store of two slots: liblilmorask_store.a
 * slots: both, one after the other, n = LIL_SLOTS(m) bytes for an image of m */

/* the newest image; 10: none is stored; 11: damaged */
uint32_t lil_slots_newest(const uint8_t *slots, lil_size n, uint8_t *image, lil_size m);
/* the image goes into the other slot, whose first byte is slots[*at]; writing that slot is the caller's */
uint32_t lil_slots_seal(uint8_t *slots, lil_size n, const uint8_t *image, lil_size m, lil_size *at);

#ifdef __cplusplus
}
#endif
#endif
