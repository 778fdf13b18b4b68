/* The table of a press, and what a panel shows, printed as the bench prints them (docs/BENCH.md). */
#ifndef PRESS_TABLE_H
#define PRESS_TABLE_H
#include <stdio.h>
#include "lilmorask.h"

/* the head of an image (docs/LINKING.md): numbers of four bytes, then bytes */
enum { PRESS_LUID = 8, PRESS_FP = 12, PRESS_ANCHOR = 16, PRESS_SESSION = 20, PRESS_STATION = 24, PRESS_AWAITS = 25 };

static inline uint32_t press_head(const uint8_t *image, int at)
{
    return image[at] | image[at + 1] << 8 | image[at + 2] << 16 | (uint32_t)image[at + 3] << 24;
}

static inline void print_report(const uint32_t *card)
{
    if (!card[LIL_CARD_REPORTED])
        printf("none");
    else if (card[LIL_CARD_REPORT_GUID])
        printf("%u:%u:%u", card[LIL_CARD_REPORT_GUID], card[LIL_CARD_REPORT_LUID], card[LIL_CARD_REPORT_FP]);
    else
        printf("-:%u:%u", card[LIL_CARD_REPORT_LUID], card[LIL_CARD_REPORT_FP]);
}

static inline void print_card(uint32_t place, const uint32_t *card, const uint8_t *text)
{
    static const char *marks[] = {"clean", "added", "changed"};
    if (card[LIL_CARD_MARK] == LIL_CARD_DELETED) {
        printf("place %u deleted %u report=", place, card[LIL_CARD_LUID]);
        print_report(card);
    } else {
        printf("place %u card %u fp=%u", place, card[LIL_CARD_LUID], card[LIL_CARD_FP]);
        printf(" mark=%s report=", marks[card[LIL_CARD_MARK]]);
        print_report(card);
        printf(" station=%u text=", card[LIL_CARD_STATION]);
        fwrite(text, 1, card[LIL_CARD_LENGTH], stdout);
    }
    putchar('\n');
}

static inline void print_press(const uint8_t *image)
{
    static const char *open[] = {"closed", "2", "4", "4", "6"};
    printf("press open=%s anchor=%u session=%u", open[image[PRESS_AWAITS]], press_head(image, PRESS_ANCHOR),
           press_head(image, PRESS_SESSION));
    printf(" fp=%u luid=%u station=%u\n", press_head(image, PRESS_FP), press_head(image, PRESS_LUID),
           image[PRESS_STATION]);
    for (uint32_t place = 0; place < LIL_PLACES; place++) {
        uint32_t card[LIL_CARD_NUMBERS];
        uint8_t text[LIL_TEXT];
        if (lil_press_card(image, LIL_PRESS_IMAGE, place, card, text) == 0)
            print_card(place, card, text);
    }
    puts("end");
}

/* of a message: which package it is, and how many changes it has */
static inline void print_changes(const uint32_t *message)
{
    printf("package %u of 6", message[LIL_CHANGES_PACKAGE]);
    if (message[LIL_CHANGES_COUNTED])
        printf(", %u changes", message[LIL_CHANGES_CHANGES]);
    putchar('\n');
}
#endif
