/* For the kill test alone: people who edit at random, texts that come once, a journal of what people were told. */
#ifndef PEOPLE_H
#define PEOPLE_H
#include "side.h"
#include "test.h"

/* the cards or records that are not deleted */
static inline int there(const struct side *s, struct seen *all)
{
    int k = 0;
    for (uint32_t place = 0; place < LIL_PLACES; place++) {
        all[k] = s->looks(place);
        k += all[k].number != 0;
    }
    return k;
}

static inline void person_adds(struct side *s, const char *text)
{
    uint32_t number;
    if (side_adds(s, text, &number) == 0)
        note("added", text, "-");
}

/* a person edits or deletes; noted before it, since a cut may leave it done and untold */
static inline void person_changes(struct side *s, const struct seen *card, const char *text)
{
    note(text ? "edits" : "deletes", text ? text : "-", card->text);
    if (text)
        side_edits(s, card->number, text);
    else
        side_deletes(s, card->number);
}

static inline void person(struct side *s)
{
    struct seen all[LIL_PLACES + 1];
    char text[LIL_TEXT + 1];
    int k = there(s, all), what = below(4);
    snprintf(text, sizeof text, "%c%u.%u", s->name[0], test.seed, ++test.texts);
    if (what < 2 && k < 12)
        person_adds(s, text);
    else if (k > 0)
        person_changes(s, &all[below(k)], what == 2 ? text : NULL);
}

static inline void people(struct side *s, int at_most)
{
    for (int k = below(at_most + 1); k > 0; k--)
        person(s);
}
#endif
