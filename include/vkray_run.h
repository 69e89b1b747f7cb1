/* vkray_run: runs the program vkray on a recording in memory, and takes its text into memory.
 *
 * A run may start threads, which a static library of the Rattle kit may not, so this starts the
 * program: what the program answers is proved, this header and what a caller passes are not. The
 * check of a recording needs no program: see vkray.h.
 *
 * It needs a system with pipe2, as Linux is: define _GNU_SOURCE before the first header. Nothing has
 * to be linked.
 */
#ifndef VKRAY_RUN_H
#define VKRAY_RUN_H

#include <errno.h>
#include <fcntl.h>
#include <poll.h>
#include <pthread.h>
#include <signal.h>
#include <spawn.h>
#include <stdlib.h>
#include <sys/wait.h>
#include <time.h>
#include <unistd.h>

#include "vkray.h"

#ifdef __cplusplus
extern "C" {
#endif

/* The statuses of vkray_run beside those of vkray.h. */
enum vkray_run_status {
    VKRAY_RUN_NOT_STARTED = 16, /* the program could not be started, or no pipe be made */
    VKRAY_RUN_KILLED = 17       /* a signal ended the program: there is no text */
};

/* Takes back a SIGPIPE that a write to an ended program left waiting. */
static inline void vkray_run_unsignal(const sigset_t *pipes)
{
    struct timespec at_once = {0, 0};
    while (sigtimedwait(pipes, NULL, &at_once) < 0 && errno == EINTR) continue;
}

/* Hands the program its input, and takes what it prints until it ends its output: the bytes, their
 * count and 1, or 0 where memory ran out or a pipe failed. */
static inline int vkray_run_exchange(int in, int out, const unsigned char *input, size_t left,
                                     unsigned char **text, size_t *length)
{
    size_t room = 0;
    for (;;) {
        struct pollfd ends[2] = {{out, POLLIN, 0}, {in, POLLOUT, 0}};
        if (poll(ends, in < 0 ? 1 : 2, -1) < 0) {
            if (errno == EINTR) continue;
            break;
        }
        if (in >= 0 && ends[1].revents) {
            /* (at most what a pipe takes at once, so that the write doesn't wait for the reader) */
            ssize_t taken = left ? write(in, input, left < 4096 ? left : 4096) : 0;
            if (taken > 0) input += taken, left -= (size_t)taken;
            /* (a program that has ended its input early, as for one that is too long, is no fault) */
            if (left == 0 || (taken < 0 && errno != EINTR)) close(in), in = -1;
        }
        if (ends[0].revents) {
            if (*length == room) {
                room = room ? 2 * room : 65536;
                unsigned char *longer = (unsigned char *)realloc(*text, room);
                if (!longer) break;
                *text = longer;
            }
            ssize_t given = read(out, *text + *length, room - *length);
            if (given == 0) {
                if (in >= 0) close(in);
                return 1;
            }
            if (given > 0) *length += (size_t)given;
            else if (errno != EINTR) break;
        }
    }
    if (in >= 0) close(in);
    return 0;
}

/* Starts a program whose input and output are pipes: their other ends, and 1, or 0. */
static inline int vkray_run_start(const char *program, const char *const *words, pid_t *child,
                                  int *in, int *out)
{
    extern char **environ;
    const char *told[16] = {program};
    int to[2], from[2], started;
    size_t count = 0;
    posix_spawn_file_actions_t ends;

    while (words[count] && count < 14) told[count + 1] = words[count], count++;
    if (words[count] || pipe2(to, O_CLOEXEC)) return 0;
    if (pipe2(from, O_CLOEXEC)) {
        close(to[0]), close(to[1]);
        return 0;
    }
    posix_spawn_file_actions_init(&ends);
    posix_spawn_file_actions_adddup2(&ends, to[0], 0);
    posix_spawn_file_actions_adddup2(&ends, from[1], 1);
    started = !posix_spawnp(child, program, &ends, NULL, (char *const *)told, environ);
    posix_spawn_file_actions_destroy(&ends);
    close(to[0]), close(from[1]);
    if (!started) close(to[1]), close(from[0]);
    *in = to[1], *out = from[0];
    return started;
}

/* Runs a program on an input.
 *
 * program            A path to the program, or its name, which is looked for on the path.
 * words              Its words, 14 at most, ended by a null pointer: {"run", NULL}, or {"run",
 *                    "--workers", "4", NULL}, or those of any other word of README.md.
 * input, length      The bytes of the recording, that are only read. They may be null where length
 *                    is 0.
 * text, text_length  Are given what the program prints, in memory of malloc that the caller frees,
 *                    and its length. The text is null where there is none.
 *
 * Gives the status with which the program ends, by the table of README.md, or one of the enum above.
 * Where memory ran out here it is VKRAY_NO_MEMORY, and there is no text.
 *
 * Threads: any may call at once. SIGPIPE is blocked in the calling thread during the call.
 */
static inline int vkray_run(const char *program, const char *const *words,
                            const unsigned char *input, size_t length, unsigned char **text,
                            size_t *text_length)
{
    int in, out, status = 0, whole;
    pid_t child;
    sigset_t pipes, before;

    *text = NULL;
    *text_length = 0;
    if (!vkray_run_start(program, words, &child, &in, &out)) return VKRAY_RUN_NOT_STARTED;
    sigemptyset(&pipes);
    sigaddset(&pipes, SIGPIPE);
    pthread_sigmask(SIG_BLOCK, &pipes, &before);
    whole = vkray_run_exchange(in, out, input, length, text, text_length);
    close(out);
    if (!sigismember(&before, SIGPIPE)) vkray_run_unsignal(&pipes);
    pthread_sigmask(SIG_SETMASK, &before, NULL);
    while (waitpid(child, &status, 0) < 0 && errno == EINTR) continue;
    if (whole && WIFEXITED(status)) return WEXITSTATUS(status);
    free(*text);
    *text = NULL;
    *text_length = 0;
    return whole ? (int)VKRAY_RUN_KILLED : (int)VKRAY_NO_MEMORY;
}

#ifdef __cplusplus
}
#endif

#endif
