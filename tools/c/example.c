/* Two keys change together, or not at all: the first script of README, asked line by line. */
#include "ktm.h"

#include <stdio.h>

static const char *const LINES[] = {
    "p1 CreateTransaction h1 0",
    "p1 KvSet h1 \"version\" 01",
    "p1 KvSet h1 \"driver\" 0a",
    "p1 KvGet - \"version\"",
    "p1 CommitTransaction h1",
    "p1 CreateTransaction h2 0",
    "p1 KvSet h2 \"version\" 02",
    "p1 KvUnset h2 \"driver\"",
    "cut 3",
    "p1 CommitTransaction h2",
    "restart 7",
    "p1 KvList -",
    "p1 KvGet - \"version\"",
};

static int ask_all(ktm *machine)
{
    char reply[4096];
    for (size_t i = 0; i < sizeof LINES / sizeof LINES[0]; i++) {
        if (ktm_line(machine, LINES[i], reply, sizeof reply) < 0) {
            perror(LINES[i]);
            return 1;
        }
        printf("%-26s  %s\n", LINES[i], reply);
    }
    return 0;
}

int main(int count, char **words)
{
    if (count != 3) {
        fprintf(stderr, "usage: example PROGRAM IMAGE\n");
        return 2;
    }
    ktm *machine = ktm_open(words[1], words[2]);
    if (machine == NULL) {
        perror(words[1]);
        return 2;
    }
    int failed = ask_all(machine);
    int status = ktm_close(machine);
    printf("status %d\n", status);
    return failed || status != 0;
}
