/* For the kill test alone: dice, chances of a power cut, and a journal of what people were told. */
#ifndef TEST_H
#define TEST_H
#include <fcntl.h>
#include <signal.h>
#include <stdint.h>
#include <stdio.h>
#include <stdlib.h>
#include <string.h>
#include <unistd.h>

static struct {
    unsigned seed;      /* of this process; texts are made of it, so that none comes twice */
    unsigned texts;
    uint64_t dice;
    double cuts;        /* how likely a cut is at each chance; 0 outside of the test */
    int send_first;     /* the order that breaks */
    int no_barriers;    /* a killed process loses nothing that it has written; a machine without power does */
    int journal;
} test;

static inline void fails(const char *what)
{
    perror(what);
    exit(2);
}

static inline double roll(void)
{
    test.dice ^= test.dice << 13;
    test.dice ^= test.dice >> 7;
    test.dice ^= test.dice << 17;
    return (double)(test.dice >> 11) / 9007199254740992.0;
}

static inline int below(int n)
{
    return (int)(roll() * n);
}

/* the power may go here: nothing that comes after it is done */
static inline void chance(void)
{
    if (test.cuts > 0 && roll() < test.cuts)
        kill(getpid(), SIGKILL);
}

/* people SEED CUTS ORDER BARRIERS: the words of the test's command; store or send, 1 or 0 */
static inline void test_begins(char **words, const char *journal)
{
    test.seed = (unsigned)strtoul(words[0], NULL, 10);
    test.dice = test.seed * 2654435761u + 88172645463325252u;
    test.cuts = atof(words[1]);
    test.send_first = strcmp(words[2], "send") == 0;
    test.no_barriers = strcmp(words[3], "0") == 0;
    test.journal = open(journal, O_WRONLY | O_APPEND | O_CREAT, 0666);
    if (test.journal < 0)
        fails(journal);
    for (int i = 0; i < 8; i++)
        roll();
}

/* a line of the journal; a text that an edit or delete takes away stands last */
static inline void note(const char *what, const char *text, const char *old)
{
    char line[96];
    int n = snprintf(line, sizeof line, "%s %s %s\n", what, text, old);
    if (write(test.journal, line, (size_t)n) != n)
        fails("journal");
}
#endif
