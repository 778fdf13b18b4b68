/* The bench's language (docs/BENCH.md) over the archives: the same words and answers, with both sides in images.
 * Left out: `reread` and `help`, which are no calls of a side. */
#define _GNU_SOURCE
#include <stdio.h>
#include <stdlib.h>
#include <string.h>
#include <sys/types.h>
#include "lilmorask.h"
#include "press_table.h"
#include "server_table.h"

enum { LONGEST_LINE = 40000 };

static uint8_t press[LIL_PRESS_IMAGE], server[LIL_SERVER_IMAGE];
static lil_size lent;

/* the wire has a message, or nothing */
static enum { NOBODY, FOR_SERVER, FOR_PRESS } wire_is;
static uint8_t wire[LIL_MESSAGE], answer[LIL_MESSAGE];
static lil_size wired;

/* what is left of a line */
struct rest {
    const uint8_t *at;
    size_t n;
};

/* ---- answers; each is 1, for a command that was one */

static int word(const char *text)
{
    puts(text);
    return 1;
}

static int said(const uint8_t *bytes, size_t n)
{
    fwrite(bytes, 1, n, stdout);
    return word("");
}

/* of a call without output */
static int told(uint32_t number)
{
    if (number == 0)
        return word("ok");
    printf("refused %u\n", number);
    return 1;
}

static int told_card(uint32_t number, uint32_t card)
{
    if (number)
        return told(number);
    printf("ok %u\n", card);
    return 1;
}

/* of a call that took a message */
static int told_message(uint32_t number, const uint8_t *message, size_t n)
{
    if (number)
        return told(number);
    return n ? said(message, n) : word("done");
}

/* ---- sessions over the wire */

static lil_size room(void)
{
    return lent < LIL_MESSAGE ? lent : LIL_MESSAGE;
}

static void put_on_wire(lil_size n, int receiver)
{
    memcpy(wire, answer, n);
    wired = n;
    wire_is = n ? receiver : NOBODY;
}

static uint32_t starts(void)
{
    lil_size n;
    uint32_t number = lil_press_start(press, sizeof press, answer, room(), &n);
    if (number == 0)
        put_on_wire(n, FOR_SERVER);
    return number;
}

static uint32_t steps(void)
{
    lil_size n;
    uint32_t number;
    if (wire_is == FOR_SERVER) {
        number = lil_server_takes(server, sizeof server, wire, wired, answer, room(), &n);
        if (number == 0)
            put_on_wire(n, FOR_PRESS);
    } else {
        number = lil_press_takes(press, sizeof press, wire, wired, answer, room(), &n);
        if (number == 0)
            put_on_wire(n, FOR_SERVER);
    }
    return number;
}

static void cuts(void)
{
    wire_is = NOBODY;
    lil_press_gives_up(press, sizeof press);
    lil_server_gives_up(server, sizeof server);
}

/* ---- what a command's words are made of */

static int ends(struct rest r)
{
    return r.n == 0;
}

/* a number without sign and leading zero, and what stands after it */
static int number_in(struct rest *r, unsigned long most, uint32_t *number)
{
    unsigned long value = 0;
    size_t k = 0;
    while (k < r->n && k < 11 && r->at[k] >= '0' && r->at[k] <= '9')
        value = value * 10 + (unsigned long)(r->at[k++] - '0');
    if (k == 0 || value > most || (k > 1 && r->at[0] == '0'))
        return 0;
    *number = (uint32_t)value;
    r->at += k;
    r->n -= k;
    return 1;
}

static int space_in(struct rest *r)
{
    if (r->n == 0 || r->at[0] != ' ')
        return 0;
    r->at++;
    r->n--;
    return 1;
}

/* ---- commands: each answers, or is 0 where the rest of the line does not fit it */

static int fresh_as(struct rest r)
{
    uint32_t station;
    if (!number_in(&r, 255, &station) || !ends(r))
        return 0;
    uint32_t number = lil_press_fresh(press, sizeof press, (uint8_t)station);
    if (number)
        return told(number);
    lil_server_fresh(server, sizeof server);
    wire_is = NOBODY;
    lent = LIL_MESSAGE;
    return word("ok");
}

static int fresh(struct rest r)
{
    static const uint8_t one[] = "1";
    return ends(r) && fresh_as((struct rest){one, 1});
}

static int lend(struct rest r)
{
    uint32_t n;
    if (!number_in(&r, LONGEST_LINE, &n) || !ends(r))
        return 0;
    lent = n;
    return word("ok");
}

static int press_add(struct rest r)
{
    uint32_t card = 0, number = lil_press_add(press, sizeof press, r.at, r.n, &card);
    return told_card(number, card);
}

static int server_add(struct rest r)
{
    uint32_t card = 0, number = lil_server_add(server, sizeof server, r.at, r.n, &card);
    return told_card(number, card);
}

static int press_edit(struct rest r)
{
    uint32_t card;
    return number_in(&r, UINT32_MAX, &card) && space_in(&r)
        && told(lil_press_edit(press, sizeof press, card, r.at, r.n));
}

static int server_edit(struct rest r)
{
    uint32_t card;
    return number_in(&r, UINT32_MAX, &card) && space_in(&r)
        && told(lil_server_edit(server, sizeof server, card, r.at, r.n));
}

static int press_delete(struct rest r)
{
    uint32_t card;
    return number_in(&r, UINT32_MAX, &card) && ends(r) && told(lil_press_delete(press, sizeof press, card));
}

static int server_delete(struct rest r)
{
    uint32_t card;
    return number_in(&r, UINT32_MAX, &card) && ends(r) && told(lil_server_delete(server, sizeof server, card));
}

static int press_wins(struct rest r)
{
    return ends(r) && told(lil_server_goes_by(server, sizeof server, 0));
}

static int server_wins(struct rest r)
{
    return ends(r) && told(lil_server_goes_by(server, sizeof server, 1));
}

static int press_gives_up(struct rest r)
{
    return ends(r) && told(lil_press_gives_up(press, sizeof press));
}

static int server_gives_up(struct rest r)
{
    return ends(r) && told(lil_server_gives_up(server, sizeof server));
}

static int start(struct rest r)
{
    if (!ends(r))
        return 0;
    uint32_t number = starts();
    return told_message(number, wire, wired);
}

static int step(struct rest r)
{
    if (!ends(r))
        return 0;
    if (wire_is == NOBODY)
        return word("idle");
    uint32_t number = steps();
    return told_message(number, wire, wired);
}

static int press_message(struct rest r)
{
    lil_size n = 0;
    uint32_t number = lil_press_takes(press, sizeof press, r.at, r.n, answer, room(), &n);
    return told_message(number, answer, n);
}

static int server_message(struct rest r)
{
    lil_size n = 0;
    uint32_t number = lil_server_takes(server, sizeof server, r.at, r.n, answer, room(), &n);
    return told_message(number, answer, n);
}

static int lose(struct rest r)
{
    if (!ends(r))
        return 0;
    wire_is = NOBODY;
    return word("ok");
}

static int cut(struct rest r)
{
    if (!ends(r))
        return 0;
    cuts();
    return word("ok");
}

static int run(struct rest r)
{
    if (!ends(r))
        return 0;
    uint32_t number = starts();
    while (number == 0 && wire_is != NOBODY)
        number = steps();
    return told_message(number, wire, 0);
}

static int breaks(struct rest r)
{
    uint32_t last;
    if (!number_in(&r, 6, &last) || !ends(r) || last == 0)
        return 0;
    uint32_t number = starts();
    for (uint32_t package = 1; number == 0 && package < last; package++)
        number = steps();
    if (number == 0)
        cuts();
    return told(number);
}

static int press_tables(struct rest r)
{
    if (!ends(r))
        return 0;
    print_press(press);
    return 1;
}

static int server_tables(struct rest r)
{
    if (!ends(r))
        return 0;
    print_server(server);
    return 1;
}

static int changes(struct rest r)
{
    uint32_t shown[LIL_CHANGES_NUMBERS];
    if (!ends(r))
        return 0;
    if (wire_is == NOBODY)
        return word("none");
    uint32_t number = lil_message_changes(wire, wired, shown);
    if (number)
        return told(number);
    print_changes(shown);
    return 1;
}

static const struct {
    const char *word;
    int (*answers)(struct rest r);
} commands[] = {
    {"fresh ", fresh_as},            {"fresh", fresh},                    {"lend ", lend},
    {"press add ", press_add},       {"press edit ", press_edit},         {"press delete ", press_delete},
    {"server add ", server_add},     {"server edit ", server_edit},       {"server delete ", server_delete},
    {"rule press", press_wins},      {"rule server", server_wins},
    {"press give up", press_gives_up}, {"server give up", server_gives_up},
    {"start", start},                {"step", step},
    {"press message ", press_message}, {"server message ", server_message},
    {"lose", lose},                  {"cut", cut},                        {"run", run},
    {"break ", breaks},              {"changes", changes},
    {"press tables", press_tables},  {"server tables", server_tables},
};

/* one line, one answer */
static void answers_line(const char *line, size_t n)
{
    for (size_t i = 0; n <= LONGEST_LINE && i < sizeof commands / sizeof commands[0]; i++) {
        size_t k = strlen(commands[i].word);
        struct rest r = {(const uint8_t *)line + k, n - k};
        if (n >= k && memcmp(line, commands[i].word, k) == 0 && commands[i].answers(r))
            return;
    }
    puts("?");
}

int main(void)
{
    char *line = NULL;
    size_t space = 0;
    ssize_t n;
    lil_press_fresh(press, sizeof press, 1);
    lil_server_fresh(server, sizeof server);
    lent = LIL_MESSAGE;
    while ((n = getline(&line, &space, stdin)) > 0) {
        if (line[n - 1] == '\n')
            n--;
        answers_line(line, (size_t)n);
    }
    return 0;
}
