/* A machine of transactions, files and keys for programs in C: its image in a file, and the program ktm_program as a process of its own,
 * which answers each line of the script language with a line. docs/MANUAL.md has the lines and the replies. */
#ifndef KTM_H
#define KTM_H

#include <stddef.h>

typedef struct ktm ktm;

/* Starts the program over an image, which becomes a new one where there is no file or an empty one. NULL, with errno, where
 * no process could be started. That the image cannot be opened is told by the first line. */
ktm *ktm_open(const char *program, const char *image);

/* Asks one line, without a newline, and puts the reply, without its newline and with a zero behind it, into the `room` bytes of
 * `reply`. Returns its length in bytes, or -1 with errno:
 *   EINVAL    the line is empty, a comment, or has a newline in it: such a line has no reply, and was not asked
 *   EMSGSIZE  the reply has `room` bytes or more: it was asked and answered, and what fits of the reply is there
 *   EPIPE     the program has ended, before the line was answered: ktm_close says why. The line may have been executed */
long ktm_line(ktm *machine, const char *line, char *reply, size_t room);

/* Ends the script, waits for the program, and returns its exit status, 0 where all lines were answered (docs/MANUAL.md has
 * the others), or -1 with errno where it has none. What is not committed is gone. */
int ktm_close(ktm *machine);

#endif
