/* What a press controller and a plant server have in common: boot, edits by people, and the store before the answer. */
#ifndef SIDE_H
#define SIDE_H
#include <stdio.h>
#include <stdlib.h>
#include <string.h>
#include <unistd.h>
#include "link.h"
#include "lilmorask.h"
#include "store.h"
#include "test.h"

/* a card or record */
struct seen {
    uint32_t number;    /* LUID or GUID; 0: none stands at the place, or one that is deleted */
    char text[LIL_TEXT + 1]; /* a place's text has 0 after its length; the last byte stays 0 */
};

struct side {
    const char *name;   /* of its files in the folder */
    const char *thing;  /* "card" or "record" */
    const char *folder;
    uint8_t *image;
    size_t n;
    uint32_t (*fresh)(uint8_t *image, lil_size n);
    uint32_t (*gives_up)(uint8_t *image, lil_size n);
    uint32_t (*add)(uint8_t *image, lil_size n, const uint8_t *text, lil_size length, uint32_t *number);
    uint32_t (*edit)(uint8_t *image, lil_size n, uint32_t number, const uint8_t *text, lil_size length);
    uint32_t (*delete)(uint8_t *image, lil_size n, uint32_t number);
    void (*prints)(const uint8_t *image);
    struct seen (*looks)(uint32_t place);
    struct store store;
    unsigned pause;     /* seconds between a store and its answer, for a person who wants to cut the power there */
    uint8_t message[LIL_MESSAGE], answer[LIL_MESSAGE];
};

static inline const char *path_of(const struct side *s, const char *kind)
{
    static char path[512];
    snprintf(path, sizeof path, "%s/%s.%s", s->folder, s->name, kind);
    return path;
}

static inline int refused(const struct side *s, uint32_t number)
{
    if (number)
        fprintf(stderr, "%s: refused %u\n", s->name, number);
    return number != 0;
}

/* ---- boot */

static inline void side_opens(struct side *s)
{
    store_opens(&s->store, path_of(s, "store"), s->n);
}

static inline void side_made(struct side *s)
{
    if (refused(s, s->fresh(s->image, s->n)))
        exit(3);
    store_puts(&s->store, s->image);
    store_named(s->folder);
}

/* the newest image of the store, or a fresh one; whatever session there was is over, before anything else is done */
static inline void side_boots(struct side *s)
{
    side_opens(s);
    uint32_t number = store_newest(&s->store, s->image);
    if (number == LIL_NO_IMAGE)
        side_made(s);
    else if (refused(s, number))
        exit(3);
    if (refused(s, s->gives_up(s->image, s->n)))
        exit(3);
}

/* ---- edits by people: each is stored when it returns 0, and then the person may be told */

static inline uint32_t side_stores(struct side *s, uint32_t number)
{
    chance();
    if (number == 0)
        store_puts(&s->store, s->image);
    return number;
}

static inline uint32_t side_adds(struct side *s, const char *text, uint32_t *number)
{
    return side_stores(s, s->add(s->image, s->n, (const uint8_t *)text, strlen(text), number));
}

static inline uint32_t side_edits(struct side *s, uint32_t number, const char *text)
{
    return side_stores(s, s->edit(s->image, s->n, number, (const uint8_t *)text, strlen(text)));
}

static inline uint32_t side_deletes(struct side *s, uint32_t number)
{
    return side_stores(s, s->delete(s->image, s->n, number));
}

/* ---- the commands that both have: each is the status to exit with */

static inline int side_told(struct side *s, uint32_t refusal, uint32_t number)
{
    if (refused(s, refusal))
        return 1;
    printf("%s %u stored\n", s->thing, number);
    return 0;
}

static inline int side_shows(struct side *s)
{
    side_opens(s);
    uint32_t number = store_newest(&s->store, s->image);
    if (number == 0)
        s->prints(s->image);
    return refused(s, number);
}

static inline int is_command(const char *name, int length, int count, char **words)
{
    return count == length && strcmp(words[0], name) == 0;
}

/* -1 where the words are none of add TEXT, edit N TEXT, delete N, show */
static inline int side_command(struct side *s, int count, char **words)
{
    uint32_t number = count > 1 ? (uint32_t)strtoul(words[1], NULL, 10) : 0;
    if (is_command("show", 1, count, words))
        return side_shows(s);
    if (is_command("add", 2, count, words)) {
        side_boots(s);
        uint32_t refusal = side_adds(s, words[1], &number);
        return side_told(s, refusal, number);
    }
    if (is_command("edit", 3, count, words)) {
        side_boots(s);
        return side_told(s, side_edits(s, number, words[2]), number);
    }
    if (is_command("delete", 2, count, words)) {
        side_boots(s);
        return side_told(s, side_deletes(s, number), number);
    }
    return -1;
}

/* ---- a session */

/* the wrong order, which the kill test tries too */
static inline int sent_then_stored(struct side *s, int link, size_t length)
{
    int sent = length == 0 || link_sends(link, s->answer, length);
    chance();
    store_puts(&s->store, s->image);
    return sent;
}

/* the order that keeps both tables in step: the image is stored, then the answer is sent; 0 where the link is gone */
static inline int stored_then_sent(struct side *s, int link, size_t length)
{
    chance();
    if (test.send_first)
        return sent_then_stored(s, link, length);
    store_puts(&s->store, s->image);
    chance();
    sleep(s->pause);
    int sent = length == 0 || link_sends(link, s->answer, length);
    chance();
    return sent;
}
#endif
