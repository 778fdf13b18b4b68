/* A press controller: its cards in an image, its image in a store, and sessions with the plant server. */
#include "people.h"
#include "press_table.h"
#include "side.h"

enum { STATION = 7 };

static const char *usage =
    "usage: press FOLDER COMMAND, which starts from FOLDER/press.store and is one of\n"
    "  add TEXT, edit N TEXT, delete N   a person edits a card\n"
    "  session [SECONDS]                 with the server in FOLDER; SECONDS between a store and its answer\n"
    "  show                              the stored table\n"
    "  people SEED CUTS ORDER BARRIERS   for controllers/kill: edits and sessions without end\n";

static uint8_t image[LIL_PRESS_IMAGE];

static uint32_t fresh(uint8_t *lent, lil_size n)
{
    return lil_press_fresh(lent, n, STATION);
}

static struct seen looks(uint32_t place)
{
    struct seen seen = {0, ""};
    uint32_t card[LIL_CARD_NUMBERS];
    uint32_t number = lil_press_card(image, sizeof image, place, card, (uint8_t *)seen.text);
    if (number == 0 && card[LIL_CARD_MARK] != LIL_CARD_DELETED)
        seen.number = card[LIL_CARD_LUID];
    return seen;
}

static struct side press = {
    .name = "press", .thing = "card", .image = image, .n = sizeof image, .fresh = fresh,
    .gives_up = lil_press_gives_up, .add = lil_press_add, .edit = lil_press_edit, .delete = lil_press_delete,
    .prints = print_press, .looks = looks,
};

/* what a panel shows of a message that was sent or received */
static void panel(const uint8_t *message, size_t n)
{
    uint32_t shown[LIL_CHANGES_NUMBERS];
    if (n == 0 || test.seed || lil_message_changes(message, n, shown))
        return;
    print_changes(shown);
    fflush(stdout);
}

/* the press takes what the server sends; 1 where the session ran through */
static int goes_on(int link, lil_size written)
{
    while (stored_then_sent(&press, link, written)) {
        panel(press.answer, written);
        if (written == 0)
            return 1;
        size_t length = link_receives(link, press.message);
        if (length == 0)
            return 0;
        panel(press.message, length);
        if (refused(&press, lil_press_takes(image, sizeof image, press.message, length, press.answer,
                                            LIL_MESSAGE, &written)))
            return 0;
    }
    return 0;
}

/* a session over a new link; 1 where it ran through, 0 where it is given up, -1 where there is no server */
static int session(void)
{
    lil_size written;
    int through, link = link_to(press.folder);
    if (link < 0)
        return -1;
    link_waits(link, 60);
    if (refused(&press, lil_press_start(image, sizeof image, press.answer, LIL_MESSAGE, &written)))
        through = 0;
    else
        through = goes_on(link, written);
    close(link);
    if (!through)
        lil_press_gives_up(image, sizeof image); /* not stored: a boot does the same */
    return through;
}

static int session_command(unsigned pause)
{
    press.pause = pause;
    side_boots(&press);
    int through = session();
    puts(through > 0 ? "done" : through < 0 ? "no server" : "the link was lost");
    return through <= 0;
}

/* edits and sessions until somebody kills it */
static _Noreturn void tested(char **words)
{
    test_begins(words, path_of(&press, "journal"));
    side_boots(&press);
    for (;;) {
        people(&press, 3);
        if (session() < 0)
            usleep(300);
    }
}

int main(int argc, char **argv)
{
    if (argc < 3) {
        fputs(usage, stderr);
        return 2;
    }
    int count = argc - 2;
    char **words = argv + 2;
    press.folder = argv[1];
    int status = side_command(&press, count, words);
    if (status >= 0)
        return status;
    if (is_command("session", 1, count, words))
        return session_command(0);
    if (is_command("session", 2, count, words))
        return session_command((unsigned)atoi(words[1]));
    if (is_command("people", 5, count, words))
        tested(words + 1);
    fputs(usage, stderr);
    return 2;
}
