/* A trace for comparing processors: random calls of every kind, and a hash over all images, messages and numbers. */
#include <stdio.h>
#include <stdlib.h>
#include <string.h>
#include "lilmorask.h"

enum { STEPS = 120, SHORT_ROOM = 600, NUMBERS = 12 };

static uint8_t press[LIL_PRESS_IMAGE], server[LIL_SERVER_IMAGE], slots[LIL_SLOTS(LIL_PRESS_IMAGE)];
static uint8_t up[LIL_MESSAGE], down[LIL_MESSAGE];
static lil_size up_length, down_length;
static enum { NOBODY, FOR_SERVER, FOR_PRESS } wire_is;

static uint8_t text[30];
static lil_size text_length;
static int fills; /* a course that fills both tables */

/* what a view showed last, and beside a number still does; a card has the most numbers */
static uint32_t shown[LIL_CARD_NUMBERS];
static uint8_t shown_text[LIL_TEXT];

/* ---- dice and hash: numbers of 64 bits, the same on every processor */

static uint64_t dice = 88172645463325252u, hash = 14695981039346656037u;
static long calls, numbers[NUMBERS];

static uint32_t below(uint32_t n)
{
    dice ^= dice << 13;
    dice ^= dice >> 7;
    dice ^= dice << 17;
    return (uint32_t)((dice >> 16) % n);
}

static void mix(const uint8_t *bytes, lil_size n)
{
    for (lil_size i = 0; i < n; i++) {
        hash ^= bytes[i];
        hash *= 1099511628211u;
    }
}

static void mix_number(uint64_t number)
{
    for (int i = 0; i < 8; i++) {
        uint8_t byte = (uint8_t)(number >> (8 * i));
        mix(&byte, 1);
    }
}

/* a call was made: its number, and what both images are after it */
static uint32_t did(uint32_t number)
{
    calls++;
    numbers[number < NUMBERS ? number : 0]++;
    mix_number(number);
    mix(press, sizeof press);
    mix(server, sizeof server);
    return number;
}

/* ---- what is done in a step */

static void some_text(void)
{
    text_length = below(27);
    for (lil_size i = 0; i < text_length; i++)
        text[i] = (uint8_t)(below(40) ? 32 + below(95) : below(256));
}

static lil_size some_room(uint32_t seldom)
{
    return below(seldom) ? LIL_MESSAGE : below(SHORT_ROOM);
}

static void press_person(void)
{
    uint32_t number = 0;
    switch (fills ? 0 : below(3)) {
    case 0: did(lil_press_add(press, sizeof press, text, text_length, &number)); break;
    case 1: did(lil_press_edit(press, sizeof press, below(12), text, text_length)); break;
    case 2: did(lil_press_delete(press, sizeof press, below(12))); break;
    }
    mix_number(number);
}

static void server_person(void)
{
    uint32_t number = 0;
    switch (fills ? 0 : below(3)) {
    case 0: did(lil_server_add(server, sizeof server, text, text_length, &number)); break;
    case 1: did(lil_server_edit(server, sizeof server, below(12), text, text_length)); break;
    case 2: did(lil_server_delete(server, sizeof server, below(12))); break;
    }
    mix_number(number);
}

static void gives_up(void)
{
    if (below(3) == 0)
        did(lil_press_gives_up(press, sizeof press));
    else if (below(3) == 0)
        did(lil_server_gives_up(server, sizeof server));
    else if (below(3) == 0)
        did(lil_server_goes_by(server, sizeof server, (uint8_t)below(2)));
}

static void starts(void)
{
    if (did(lil_press_start(press, sizeof press, up, some_room(9), &up_length)) == 0) {
        wire_is = FOR_SERVER;
        mix(up, up_length);
    }
}

static void server_takes(void)
{
    if (did(lil_server_takes(server, sizeof server, up, up_length, down, some_room(30), &down_length)) == 0) {
        wire_is = FOR_PRESS;
        mix(down, down_length);
    }
}

static void press_takes(void)
{
    if (did(lil_press_takes(press, sizeof press, down, down_length, up, some_room(30), &up_length)) == 0) {
        wire_is = up_length ? FOR_SERVER : NOBODY;
        mix(up, up_length);
    }
}

static void steps(void)
{
    if (wire_is == FOR_SERVER)
        server_takes();
    else if (wire_is == FOR_PRESS)
        press_takes();
}

/* some byte is another; or the first digit from there on is */
static void damages(uint8_t *message, lil_size n)
{
    lil_size at = below((uint32_t)n);
    int digit = below(3) > 0;
    while (digit && at + 1 < n && (message[at] < '0' || message[at] > '9'))
        at++;
    message[at] = (uint8_t)(digit ? '0' + below(10) : below(256));
}

static void damages_wire(void)
{
    if (wire_is == FOR_SERVER && below(3) == 0)
        damages(up, up_length);
    else if (wire_is == FOR_PRESS && below(3) == 0)
        damages(down, down_length);
}

/* calls on an image of which one byte is another; it is put right again */
static void damages_image(void)
{
    uint32_t at = below(sizeof press), number = 0;
    uint8_t old = press[at];
    press[at] ^= (uint8_t)(1 + below(255));
    did(lil_press_check(press, sizeof press));
    mix_number(lil_press_form(press, sizeof press));
    mix_number(lil_server_form(press, sizeof press));
    did(lil_press_add(press, sizeof press, text, text_length, &number));
    press[at] = old;
}

static void looked(uint32_t number)
{
    did(number);
    for (int i = 0; i < LIL_CARD_NUMBERS; i++)
        mix_number(shown[i]);
    mix(shown_text, sizeof shown_text);
}

/* the press is stored, and now and then a slot is damaged or off */
static void stores(void)
{
    uint8_t image[LIL_PRESS_IMAGE];
    lil_size at = 0;
    did(lil_slots_seal(slots, sizeof slots, press, sizeof press, &at));
    mix_number(at);
    if (below(8) == 0)
        slots[at + (below(2) ? below(sizeof press) : sizeof press + LIL_SLOT_TAIL - 1)] ^= 1;
    memset(image, 0, sizeof image);
    if (did(lil_slots_newest(slots, sizeof slots, image, sizeof image)) == LIL_DAMAGED)
        memset(slots, 0, sizeof slots);
    mix(slots, sizeof slots);
    mix(image, sizeof image);
}

static void step(void)
{
    some_text();
    switch (below(18)) {
    case 0: case 1: case 2: press_person(); break;
    case 3: case 4: case 5: server_person(); break;
    case 6: gives_up(); break;
    case 7: starts(); break;
    case 8: damages_wire(); break;
    case 9: damages_image(); break;
    case 10: looked(lil_press_card(press, sizeof press, below(34), shown, shown_text)); break;
    case 11: looked(lil_server_record(server, sizeof server, below(34), shown, shown_text)); break;
    case 12: looked(lil_message_changes(up, up_length, shown)); break;
    case 13: stores(); break;
    default: steps(); break;
    }
}

static void course(void)
{
    if (did(lil_press_fresh(press, sizeof press, (uint8_t)below(8))))
        did(lil_press_fresh(press, sizeof press, 7));
    did(lil_server_fresh(server, sizeof server));
    wire_is = NOBODY;
    fills = below(10) == 0;
    for (int i = 0; i < STEPS * (1 + fills); i++)
        step();
}

int main(int argc, char **argv)
{
    int courses = argc > 1 ? atoi(argv[1]) : 200;
    for (int i = 0; i < courses; i++)
        course();
    printf("%ld calls, hash %08lx", calls, (unsigned long)(hash >> 32));
    printf("%08lx, numbers", (unsigned long)(hash & 0xffffffff));
    for (int i = 0; i < NUMBERS; i++)
        printf(" %ld", numbers[i]);
    printf("\n");
    return 0;
}
