/* What calls on images cost: processor time, and the stack that they really touch. */
#define _GNU_SOURCE
#include <pthread.h>
#include <stdio.h>
#include <stdlib.h>
#include <string.h>
#include <time.h>
#include "lilmorask.h"

enum { TURNS = 7, SESSIONS = 600, CALLS = 20000, PAINT = 0xC5 };

static uint8_t press[LIL_PRESS_IMAGE], server[LIL_SERVER_IMAGE], slots[LIL_SLOTS(LIL_PRESS_IMAGE)];
static uint8_t up[LIL_MESSAGE], down[LIL_MESSAGE];
static lil_size up_length, down_length, at;
static size_t carried;
static uint32_t number;
static char text[48]; /* the first 24 bytes count */
static uint32_t shown[LIL_CARD_NUMBERS]; /* a card has the most */
static uint8_t shown_text[LIL_TEXT];

static void ok(uint32_t refusal)
{
    if (refusal) {
        printf("refused %u\n", refusal);
        exit(1);
    }
}

static double now(void)
{
    struct timespec t;
    clock_gettime(CLOCK_PROCESS_CPUTIME_ID, &t);
    return (double)t.tv_sec * 1e6 + (double)t.tv_nsec * 1e-3;
}

/* ---- a course: all cards are edited on both sides, and a session is run */

static const uint8_t *text_for(const char *who, int card, int turn)
{
    snprintf(text, sizeof text, "%s %05d of %05d ......", who, card, turn);
    return (const uint8_t *)text;
}

static void edits(int cards, int turn)
{
    for (int i = 1; i <= cards; i++) {
        ok(lil_press_edit(press, sizeof press, (uint32_t)i, text_for("press", i, turn), LIL_TEXT));
        ok(lil_server_edit(server, sizeof server, (uint32_t)i, text_for("plant", i, turn), LIL_TEXT));
    }
}

static void press_starts(void)
{
    ok(lil_press_start(press, sizeof press, up, sizeof up, &up_length));
    carried += up_length;
}

static void server_takes(void)
{
    ok(lil_server_takes(server, sizeof server, up, up_length, down, sizeof down, &down_length));
    carried += down_length;
}

static void press_takes(void)
{
    ok(lil_press_takes(press, sizeof press, down, down_length, up, sizeof up, &up_length));
    carried += up_length;
}

static void session(void)
{
    carried = 0;
    press_starts();
    for (int i = 0; i < 3; i++) {
        server_takes();
        press_takes();
    }
}

/* both sides have the same cards, and the server wins: so all six packages are as long as they can be */
static void in_step(int cards)
{
    ok(lil_press_fresh(press, sizeof press, 7));
    ok(lil_server_fresh(server, sizeof server));
    ok(lil_server_goes_by(server, sizeof server, 1));
    for (int i = 0; i < cards; i++)
        ok(lil_press_add(press, sizeof press, text_for("cards", i, 0), LIL_TEXT, &number));
    session();
}

/* ---- single calls */

static void nothing(void)
{
}

static void press_looked_at(void)
{
    ok(lil_press_check(press, sizeof press));
}

static void server_looked_at(void)
{
    ok(lil_server_check(server, sizeof server));
}

static void press_gives_up(void)
{
    ok(lil_press_gives_up(press, sizeof press));
}

static void press_edit(void)
{
    ok(lil_press_edit(press, sizeof press, 1, (const uint8_t *)text, LIL_TEXT));
}

static void server_edit(void)
{
    ok(lil_server_edit(server, sizeof server, 1, (const uint8_t *)text, LIL_TEXT));
}

static void card_shown(void)
{
    ok(lil_press_card(press, sizeof press, 0, shown, shown_text));
}

static void record_shown(void)
{
    ok(lil_server_record(server, sizeof server, 0, shown, shown_text));
}

static void message_shown(void)
{
    ok(lil_message_changes(up, up_length, shown));
}

static void sealed(void)
{
    ok(lil_slots_seal(slots, sizeof slots, press, sizeof press, &at));
}

static const struct {
    const char *name;
    void (*does)(void);
} single[] = {
    {"lil_press_check: an image looked at", press_looked_at},
    {"lil_server_check", server_looked_at},
    {"lil_press_gives_up: looked at, and written", press_gives_up},
    {"lil_press_edit", press_edit},
    {"lil_server_edit", server_edit},
    {"lil_press_card", card_shown},
    {"lil_server_record", record_shown},
    {"lil_message_changes, of the longest message", message_shown},
    {"lil_slots_seal", sealed},
};

/* ---- time: the best of several turns */

static double time_of(void (*does)(void))
{
    double best = 1e12;
    for (int turn = 0; turn < TURNS; turn++) {
        double begin = now();
        for (int i = 0; i < CALLS; i++)
            does();
        double each = (now() - begin) / CALLS;
        best = each < best ? each : best;
    }
    return best;
}

static double time_of_sessions(int cards)
{
    double best = 1e12;
    for (int turn = 0; turn < TURNS; turn++) {
        double spent = 0;
        for (int i = 0; i < SESSIONS; i++) {
            edits(cards, i);
            double begin = now();
            session();
            spent += now() - begin;
        }
        best = spent / SESSIONS < best ? spent / SESSIONS : best;
    }
    return best;
}

/* ---- stack: a thread whose stack is painted, less what a thread that does nothing touches */

static uint8_t stack[1 << 20] __attribute__((aligned(4096)));

static void *in_thread(void *does)
{
    (*(void (**)(void))does)();
    return NULL;
}

static size_t painted(void (*does)(void))
{
    pthread_attr_t with;
    pthread_t thread;
    size_t untouched = 0;
    memset(stack, PAINT, sizeof stack);
    pthread_attr_init(&with);
    pthread_attr_setstack(&with, stack, sizeof stack);
    if (pthread_create(&thread, &with, in_thread, &does) || pthread_join(thread, NULL))
        exit(1);
    while (untouched < sizeof stack && stack[untouched] == PAINT)
        untouched++;
    return sizeof stack - untouched;
}

static void stack_of(const char *name, void (*does)(void), size_t bare)
{
    printf("%-45s %6zu bytes of stack touched\n", name, painted(does) - bare);
}

static void stacks_of_a_session(size_t bare)
{
    static const char *at_server[] = {"lil_server_takes, Pkg 1", "lil_server_takes, Pkg 3", "lil_server_takes, Pkg 5"};
    static const char *at_press[] = {"lil_press_takes, Pkg 2", "lil_press_takes, Pkg 4", "lil_press_takes, Pkg 6"};
    edits(LIL_PLACES, 1);
    stack_of("lil_press_start", press_starts, bare);
    for (int i = 0; i < 3; i++) {
        stack_of(at_server[i], server_takes, bare);
        stack_of(at_press[i], press_takes, bare);
    }
}

/* Pkg 3 of 32 cards stands in up, and both sides are closed */
static void longest_message(void)
{
    edits(LIL_PLACES, 1);
    press_starts();
    server_takes();
    press_takes();
    press_gives_up();
    ok(lil_server_gives_up(server, sizeof server));
}

/* measure TURNS SESSIONS: so many turns of edits of 32 cards, with so many sessions each; for counting instructions */
static void only(int turns, int sessions)
{
    in_step(LIL_PLACES);
    for (int turn = 0; turn < turns; turn++) {
        edits(LIL_PLACES, turn);
        for (int i = 0; i < sessions; i++)
            session();
    }
}

int main(int argc, char **argv)
{
    if (argc == 3) {
        only(atoi(argv[1]), atoi(argv[2]));
        return 0;
    }
    for (int i = 0; i < 3; i++) {
        int cards = (const int[]){1, 8, 32}[i];
        in_step(cards);
        double spent = time_of_sessions(cards);
        printf("a session of %2d cards, all changed: %6.1f us, %zu bytes of messages\n", cards, spent, carried);
    }
    longest_message();
    size_t bare = painted(nothing);
    for (size_t i = 0; i < sizeof single / sizeof single[0]; i++) {
        printf("%-45s %6.2f us, ", single[i].name, time_of(single[i].does));
        printf("%zu bytes of stack touched\n", painted(single[i].does) - bare);
    }
    stacks_of_a_session(bare);
    return 0;
}
