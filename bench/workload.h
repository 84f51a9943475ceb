/* What the two programs read and write: a workload is lines of words with one space between, each with a newline at its end, and
 * each line is answered with a line, written at once. */
#include <stdio.h>
#include <stdlib.h>
#include <string.h>
#include <unistd.h>

struct word {
    char *at;
    size_t length;
};

static void fail(const char *what) {
    perror(what);
    exit(1);
}

/* Takes the next word of the line, which is empty at the line's end. */
static struct word next_word(char **at, char *end) {
    char *space = memchr(*at, ' ', (size_t)(end - *at));
    struct word found = {*at, (size_t)((space ? space : end) - *at)};
    *at = space ? space + 1 : end;
    return found;
}

static int is(struct word word, const char *name) {
    return word.length == strlen(name) && !memcmp(word.at, name, word.length);
}

/* The line of an answer that is being put together. */
static char *answer;
static size_t answer_length, answer_room;

static void put(const void *bytes, size_t length) {
    if (answer_length + length > answer_room) {
        answer_room = 2 * (answer_length + length);
        answer = realloc(answer, answer_room);
        if (!answer) fail("realloc");
    }
    memcpy(answer + answer_length, bytes, length);
    answer_length += length;
}

static void send_answer(void) {
    put("\n", 1);
    if (write(1, answer, answer_length) != (ssize_t)answer_length) fail("write");
    answer_length = 0;
}

/* Carries out each line of the workload, and answers it. */
static void carry_out_all(const char *path, void (*carry_out)(struct word name, struct word first, struct word second)) {
    FILE *file = fopen(path, "rb");
    if (!file) fail(path);
    char *line = NULL;
    size_t room = 0;
    ssize_t length;
    while ((length = getline(&line, &room, file)) > 0) {
        char *at = line, *end = line + length - 1;
        struct word name = next_word(&at, end), first = next_word(&at, end), second = next_word(&at, end);
        put("ok", 2);
        carry_out(name, first, second);
        send_answer();
    }
    fclose(file);
}
