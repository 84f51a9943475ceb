/* Installs the files of a workload in a folder by plain calls: each is written whole under a temporary name, synced and renamed,
 * and a commit syncs the folder. Each file is there old or new after a loss of power, but some may be old and others new.
 *
 *     files FOLDER WORKLOAD */
#include <fcntl.h>

#include "workload.h"

static int folder;

static void install(struct word name, struct word bytes) {
    char last[256], temporary[264];
    snprintf(last, sizeof last, "%.*s", (int)name.length, name.at);
    snprintf(temporary, sizeof temporary, "%s.new", last);
    int file = openat(folder, temporary, O_WRONLY | O_CREAT | O_TRUNC, 0666);
    if (file < 0) fail(temporary);
    if (write(file, bytes.at, bytes.length) != (ssize_t)bytes.length) fail("write");
    if (fsync(file) || close(file) || renameat(folder, temporary, folder, last)) fail(last);
}

static void carry_out(struct word name, struct word first, struct word second) {
    if (is(name, "install")) {
        install(first, second);
    } else if (is(name, "commit")) {
        if (fsync(folder)) fail("fsync");
    } else if (!is(name, "begin")) {
        fprintf(stderr, "files: no such command\n");
        exit(1);
    }
}

int main(int count, char **words) {
    if (count != 3) return 1;
    folder = open(words[1], O_RDONLY | O_DIRECTORY);
    if (folder < 0) fail(words[1]);
    carry_out_all(words[2], carry_out);
    return 0;
}
