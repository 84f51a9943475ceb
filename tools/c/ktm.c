/* A machine behind two pipes. */
#define _GNU_SOURCE
#include "ktm.h"

#include <errno.h>
#include <fcntl.h>
#include <signal.h>
#include <spawn.h>
#include <stdlib.h>
#include <string.h>
#include <sys/wait.h>
#include <time.h>
#include <unistd.h>

extern char **environ;

/* What the program prints where it opens no image; no reply begins so. */
static const char BAD_IMAGE[] = "bad image at ";

struct ktm {
    pid_t process;
    int lines;
    int replies;
    /* What was read of the replies and not handed out. */
    char bytes[4096];
    size_t begin, end;
};

static int make_pipes(int lines[2], int replies[2])
{
    if (pipe2(lines, O_CLOEXEC) != 0)
        return -1;
    if (pipe2(replies, O_CLOEXEC) == 0)
        return 0;
    int failed = errno;
    close(lines[0]);
    close(lines[1]);
    errno = failed;
    return -1;
}

/* Starts the process with one pipe as its input and one as its output; returns an error number. */
static int start(pid_t *process, const char *program, const char *image, int input, int output)
{
    char *words[] = {(char *)program, "run", (char *)image, "/dev/stdin", NULL};
    posix_spawn_file_actions_t actions;
    int error = posix_spawn_file_actions_init(&actions);
    if (error != 0)
        return error;
    error = posix_spawn_file_actions_adddup2(&actions, input, STDIN_FILENO);
    if (error == 0)
        error = posix_spawn_file_actions_adddup2(&actions, output, STDOUT_FILENO);
    if (error == 0)
        error = posix_spawn(process, program, &actions, NULL, words, environ);
    posix_spawn_file_actions_destroy(&actions);
    return error;
}

ktm *ktm_open(const char *program, const char *image)
{
    int lines[2], replies[2];
    ktm *machine = calloc(1, sizeof *machine);
    if (machine == NULL)
        return NULL;
    if (make_pipes(lines, replies) != 0) {
        int failed = errno;
        free(machine);
        errno = failed;
        return NULL;
    }
    int error = start(&machine->process, program, image, lines[0], replies[1]);
    close(lines[0]);
    close(replies[1]);
    machine->lines = lines[1];
    machine->replies = replies[0];
    if (error == 0)
        return machine;
    close(machine->lines);
    close(machine->replies);
    free(machine);
    errno = error;
    return NULL;
}

static int write_all(int file, const char *bytes, size_t many)
{
    while (many > 0) {
        ssize_t written = write(file, bytes, many);
        if (written < 0 && errno == EINTR)
            continue;
        if (written < 0)
            return -1;
        bytes += written;
        many -= (size_t)written;
    }
    return 0;
}

/* Writes a line, and takes the signal of a pipe that nobody reads for itself. */
static int ask(int file, const char *line, size_t many)
{
    const struct timespec at_once = {0, 0};
    sigset_t broken, before, waiting;
    sigemptyset(&broken);
    sigaddset(&broken, SIGPIPE);
    sigpending(&waiting);
    int waited = sigismember(&waiting, SIGPIPE);
    pthread_sigmask(SIG_BLOCK, &broken, &before);
    int done = write_all(file, line, many) == 0 ? write_all(file, "\n", 1) : -1;
    if (done != 0 && errno == EPIPE && !waited)
        while (sigtimedwait(&broken, NULL, &at_once) < 0 && errno == EINTR)
            ;
    pthread_sigmask(SIG_SETMASK, &before, NULL);
    if (done != 0)
        errno = EPIPE;
    return done;
}

/* The next byte of the replies, or -1 at their end. */
static int next(ktm *machine)
{
    while (machine->begin == machine->end) {
        ssize_t many = read(machine->replies, machine->bytes, sizeof machine->bytes);
        if (many < 0 && errno == EINTR)
            continue;
        if (many <= 0)
            return -1;
        machine->begin = 0;
        machine->end = (size_t)many;
    }
    return (unsigned char)machine->bytes[machine->begin++];
}

static long answer(ktm *machine, char *reply, size_t room)
{
    char head[sizeof BAD_IMAGE] = "";
    size_t many = 0;
    for (;;) {
        int byte = next(machine);
        if (byte == -1) {
            errno = EPIPE;
            return -1;
        }
        if (byte == '\n')
            break;
        if (many < sizeof head - 1)
            head[many] = (char)byte;
        if (many + 1 < room)
            reply[many] = (char)byte;
        many++;
    }
    if (room > 0)
        reply[many < room ? many : room - 1] = '\0';
    if (strcmp(head, BAD_IMAGE) == 0) {
        errno = EPIPE;
        return -1;
    }
    if (many >= room) {
        errno = EMSGSIZE;
        return -1;
    }
    return (long)many;
}

long ktm_line(ktm *machine, const char *line, char *reply, size_t room)
{
    size_t many = strlen(line);
    if (many == 0 || line[0] == '#' || memchr(line, '\n', many) != NULL) {
        errno = EINVAL;
        return -1;
    }
    if (ask(machine->lines, line, many) != 0)
        return -1;
    return answer(machine, reply, room);
}

int ktm_close(ktm *machine)
{
    int status;
    pid_t ended;
    close(machine->lines);
    while (next(machine) != -1)
        ;
    close(machine->replies);
    do
        ended = waitpid(machine->process, &status, 0);
    while (ended < 0 && errno == EINTR);
    free(machine);
    if (ended < 0)
        return -1;
    if (!WIFEXITED(status)) {
        errno = ECANCELED;
        return -1;
    }
    return WEXITSTATUS(status);
}
