/* The table of a server, printed as the bench prints it (docs/BENCH.md). */
#ifndef SERVER_TABLE_H
#define SERVER_TABLE_H
#include <stdio.h>
#include "lilmorask.h"

/* the head of an image (docs/LINKING.md): numbers of four bytes, then bytes */
enum { SERVER_GUID = 8, SERVER_ANCHOR = 12, SERVER_SESSION = 16, SERVER_AWAITS = 24, SERVER_RULE = 25 };

static inline uint32_t server_head(const uint8_t *image, int at)
{
    return image[at] | image[at + 1] << 8 | image[at + 2] << 16 | (uint32_t)image[at + 3] << 24;
}

static inline void print_record(uint32_t place, const uint32_t *record, const uint8_t *text)
{
    static const char *marks[] = {"clean", "dirty", "offered", "deleted"};
    printf("place %u record %u luid=", place, record[LIL_RECORD_GUID]);
    if (record[LIL_RECORD_LUID])
        printf("%u", record[LIL_RECORD_LUID]);
    else
        printf("none");
    printf(" known=%u mark=%s", record[LIL_RECORD_KNOWN], marks[record[LIL_RECORD_MARK]]);
    printf(" station=%u text=", record[LIL_RECORD_STATION]);
    fwrite(text, 1, record[LIL_RECORD_LENGTH], stdout);
    putchar('\n');
}

static inline void print_server(const uint8_t *image)
{
    static const char *open[] = {"closed", "3", "3", "5"};
    printf("server open=%s anchor=%u session=%u", open[image[SERVER_AWAITS]], server_head(image, SERVER_ANCHOR),
           server_head(image, SERVER_SESSION));
    printf(" guid=%u rule=%s\n", server_head(image, SERVER_GUID), image[SERVER_RULE] ? "server" : "press");
    for (uint32_t place = 0; place < LIL_PLACES; place++) {
        uint32_t record[LIL_RECORD_NUMBERS];
        uint8_t text[LIL_TEXT];
        if (lil_server_record(image, LIL_SERVER_IMAGE, place, record, text) == 0)
            print_record(place, record, text);
    }
    puts("end");
}
#endif
