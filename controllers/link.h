/* The link: messages over a socket on this machine, each behind its length in four bytes. */
#ifndef LINK_H
#define LINK_H
#include <errno.h>
#include <stdio.h>
#include <stdlib.h>
#include <sys/socket.h>
#include <sys/time.h>
#include <sys/un.h>
#include <unistd.h>
#include "lilmorask.h"
#include "test.h"

static inline struct sockaddr_un link_address(const char *folder)
{
    struct sockaddr_un a = {.sun_family = AF_UNIX};
    if (snprintf(a.sun_path, sizeof a.sun_path, "%s/link", folder) >= (int)sizeof a.sun_path) {
        fprintf(stderr, "%s: a link's path has at most %zu bytes\n", folder, sizeof a.sun_path - 1);
        exit(2);
    }
    return a;
}

/* a side that hears nothing for so long gives the link up */
static inline void link_waits(int link, int seconds)
{
    struct timeval t = {seconds, 0};
    setsockopt(link, SOL_SOCKET, SO_RCVTIMEO, &t, sizeof t);
}

/* where the server waits for presses */
static inline int link_made(const char *folder)
{
    struct sockaddr_un a = link_address(folder);
    int waits = socket(AF_UNIX, SOCK_STREAM, 0);
    unlink(a.sun_path);
    if (waits < 0 || bind(waits, (struct sockaddr *)&a, sizeof a) || listen(waits, 4))
        fails(a.sun_path);
    return waits;
}

/* the press's end of a new link; -1 where no server serves */
static inline int link_to(const char *folder)
{
    struct sockaddr_un a = link_address(folder);
    int link = socket(AF_UNIX, SOCK_STREAM, 0);
    if (link < 0)
        fails("socket");
    if (connect(link, (struct sockaddr *)&a, sizeof a) == 0)
        return link;
    close(link);
    return -1;
}

static inline int link_puts(int link, const uint8_t *bytes, size_t n)
{
    while (n) {
        ssize_t k = send(link, bytes, n, MSG_NOSIGNAL);
        if (k < 0 && errno == EINTR)
            continue;
        if (k <= 0)
            return 0;
        bytes += k;
        n -= (size_t)k;
    }
    return 1;
}

static inline int link_gets(int link, uint8_t *bytes, size_t n)
{
    while (n) {
        ssize_t k = recv(link, bytes, n, 0);
        if (k < 0 && errno == EINTR)
            continue;
        if (k <= 0)
            return 0;
        bytes += k;
        n -= (size_t)k;
    }
    return 1;
}

/* 0 where the link is gone */
static inline int link_sends(int link, const uint8_t *message, size_t n)
{
    uint8_t head[4] = {(uint8_t)n, (uint8_t)(n >> 8), (uint8_t)(n >> 16), (uint8_t)(n >> 24)};
    return link_puts(link, head, sizeof head) && link_puts(link, message, n);
}

/* a message's length; 0 where the link is gone */
static inline size_t link_receives(int link, uint8_t *message)
{
    uint8_t head[4];
    if (!link_gets(link, head, sizeof head))
        return 0;
    size_t n = head[0] | head[1] << 8 | head[2] << 16 | (size_t)head[3] << 24;
    if (n > LIL_MESSAGE || !link_gets(link, message, n))
        return 0;
    return n;
}
#endif
