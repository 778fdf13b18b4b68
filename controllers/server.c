/* A plant server: its records in an image, its image in a store, and a press that connects for each session. */
#include "people.h"
#include "server_table.h"
#include "side.h"

static const char *usage =
    "usage: server FOLDER [COMMAND], which starts from FOLDER/server.store and is one of\n"
    "  serve [SECONDS]                   sessions until it is ended; SECONDS between a store and its answer\n"
    "  add TEXT, edit N TEXT, delete N   a person edits a record\n"
    "  rule press, rule server           whose text wins when both sides have edited a card\n"
    "  show                              the stored table\n"
    "  people SEED CUTS ORDER BARRIERS   for controllers/kill: as serve, with edits before each session\n"
    "Without a command it serves. While it serves, edits wait for the session to be over.\n";

static uint8_t image[LIL_SERVER_IMAGE];

static struct seen looks(uint32_t place)
{
    struct seen seen = {0, ""};
    uint32_t record[LIL_RECORD_NUMBERS];
    uint32_t number = lil_server_record(image, sizeof image, place, record, (uint8_t *)seen.text);
    if (number == 0 && record[LIL_RECORD_MARK] != LIL_RECORD_DELETED)
        seen.number = record[LIL_RECORD_GUID];
    return seen;
}

static struct side server = {
    .name = "server", .thing = "record", .image = image, .n = sizeof image, .fresh = lil_server_fresh,
    .gives_up = lil_server_gives_up, .add = lil_server_add, .edit = lil_server_edit, .delete = lil_server_delete,
    .prints = print_server, .looks = looks,
};

/* what the press sends is taken until the link is gone */
static void goes_on(int link)
{
    size_t length;
    while ((length = link_receives(link, server.message)) > 0) {
        lil_size written;
        if (refused(&server, lil_server_takes(image, sizeof image, server.message, length, server.answer,
                                              LIL_MESSAGE, &written)))
            return;
        if (!stored_then_sent(&server, link, written))
            return;
    }
}

/* a boot for each link: so its people's commands, which are processes of their own, may come between two sessions */
static _Noreturn void serve(unsigned pause)
{
    server.pause = pause;
    int waits = link_made(server.folder);
    for (;;) {
        int link = accept(waits, NULL, NULL);
        if (link < 0)
            continue;
        link_waits(link, 60);
        side_boots(&server);
        if (test.seed)
            people(&server, 2);
        goes_on(link);
        close(link);
        store_closes(&server.store);
    }
}

static int goes_by(uint8_t rule)
{
    side_boots(&server);
    if (refused(&server, side_stores(&server, lil_server_goes_by(image, sizeof image, rule))))
        return 1;
    puts("rule stored");
    return 0;
}

int main(int argc, char **argv)
{
    static char *serves[] = {"serve"};
    if (argc < 2) {
        fputs(usage, stderr);
        return 2;
    }
    int count = argc > 2 ? argc - 2 : 1;
    char **words = argc > 2 ? argv + 2 : serves;
    server.folder = argv[1];
    int status = side_command(&server, count, words);
    if (status >= 0)
        return status;
    if (is_command("serve", 1, count, words))
        serve(0);
    if (is_command("serve", 2, count, words))
        serve((unsigned)atoi(words[1]));
    if (is_command("rule", 2, count, words) && strcmp(words[1], "press") == 0)
        return goes_by(0);
    if (is_command("rule", 2, count, words) && strcmp(words[1], "server") == 0)
        return goes_by(1);
    if (is_command("people", 5, count, words)) {
        test_begins(words + 1, path_of(&server, "journal"));
        serve(0);
    }
    fputs(usage, stderr);
    return 2;
}
