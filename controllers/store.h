/* A store of two slots in a file: a sealed slot is written so that a cut leaves the old image or the new. */
#ifndef STORE_H
#define STORE_H
#include <fcntl.h>
#include <stdio.h>
#include <stdlib.h>
#include <string.h>
#include <sys/file.h>
#include <unistd.h>
#include "lilmorask.h"
#include "test.h"

#define STORE_PIECE 192     /* a body is written in pieces, since a real disc or flash is torn anywhere */

struct store {
    int file;
    size_t image, both;     /* bytes of an image, and of both slots */
    uint8_t slots[LIL_SLOTS(LIL_PRESS_IMAGE)]; /* what the file has */
};

/* opens the file and reads both slots; a file that is new has zeros, so no slot of it is marked */
static inline void store_opens(struct store *s, const char *path, size_t image)
{
    s->image = image;
    s->both = LIL_SLOTS(image);
    memset(s->slots, 0, sizeof s->slots);
    s->file = open(path, O_RDWR | O_CREAT, 0666);
    /* one process at a time on one store */
    if (s->file < 0 || flock(s->file, LOCK_EX) || pread(s->file, s->slots, s->both, 0) < 0)
        fails(path);
}

/* the name of a new file has to last too */
static inline void store_named(const char *folder)
{
    int file = open(folder, O_RDONLY | O_DIRECTORY);
    if (file < 0 || fsync(file))
        fails(folder);
    close(file);
}

static inline void store_closes(struct store *s)
{
    close(s->file);
}

static inline uint32_t store_newest(const struct store *s, uint8_t *image)
{
    return lil_slots_newest(s->slots, s->both, image, s->image);
}

static inline void store_writes(struct store *s, size_t at, const uint8_t *bytes, size_t n)
{
    chance();
    if (pwrite(s->file, bytes, n, (off_t)at) != (ssize_t)n)
        fails("store");
}

/* what was written before is there before anything that is written after */
static inline void store_barrier(struct store *s)
{
    if (!test.no_barriers && fdatasync(s->file))
        fails("store");
}

static inline void store_writes_body(struct store *s, size_t from, size_t end)
{
    for (size_t at = from; at < end; at += STORE_PIECE)
        store_writes(s, at, s->slots + at, end - at < STORE_PIECE ? end - at : STORE_PIECE);
}

/* the newest slot is not touched; the other one is off by its mark until all of it is there */
static inline void store_puts(struct store *s, const uint8_t *image)
{
    const uint8_t off = 0;
    lil_size at;
    uint32_t number = lil_slots_seal(s->slots, s->both, image, s->image, &at);
    if (number) {
        fprintf(stderr, "the store refused %u\n", number);
        exit(3);
    }
    size_t mark = at + s->image + LIL_SLOT_TAIL - 1;
    store_writes(s, mark, &off, 1);
    store_barrier(s);
    store_writes_body(s, at, mark);
    store_barrier(s);
    store_writes(s, mark, s->slots + mark, 1);
    store_barrier(s);
}
#endif
