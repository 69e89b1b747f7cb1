/* vkray_check: whether a recording of Vulkan commands for ray queries breaks a rule V1 to V32.
 *
 * The rules and the form of a recording are those of docs/RECORDING.md; the texts and the statuses
 * are those of the program's word `check` in README.md. What the library answers is proved; this
 * header, and what a caller passes, are not. A run has no function here: it may start threads, which
 * such a library may not. vkray_run.h starts the program `vkray` for it.
 *
 * Linking: the static library crates/vkray_c/out/libvkray_c.a, the library liblibc_c.a of the
 * Rattle kit, which passes on the program's malloc, realloc and free, and the C library.
 */
#ifndef VKRAY_H
#define VKRAY_H

#include <stddef.h>

#ifdef __cplusplus
extern "C" {
#endif

/* How a call ends: 0 to 7 are the numbers with which the program ends, by README.md's table. Of a
 * check come 0, 1, 2, 6, 7 and 8 alone. */
enum vkray_status {
    VKRAY_DONE = 0,          /* no rule is broken: the text is `ok` */
    VKRAY_REFUSED = 1,       /* a command breaks a rule: `refused I RULE` and its place */
    VKRAY_BAD_RECORDING = 2, /* no JSON, or no recording: `not-json`, or `bad-shape I` */
    VKRAY_BAD_WORDS = 3,     /* of the program alone: its words are bad */
    VKRAY_READ_FAULT = 4,    /* of the program alone: a read failed */
    VKRAY_WRITE_FAULT = 5,   /* of the program alone: a write failed */
    VKRAY_TOO_LONG = 6,      /* more than 2^26 bytes: `too-long` */
    VKRAY_NO_MEMORY = 7,     /* memory ran out: no text, length 0 */
    VKRAY_NO_ROOM = 8        /* the buffer is too short for the text, whose length is told */
};

/* A buffer of so many bytes is long enough for the text of any check. */
#define VKRAY_CHECK_TEXT 64

/* The proved function. Each pointer has to lead to memory, that of a length 0 as well; what they
 * lead to may not overlap, and nobody else may write it, or read the last two, during the call.
 * No length is 2^63 or more. Call vkray_check, which takes null pointers too. */
unsigned vkray_check_slices(const unsigned char *recording, size_t length, unsigned char *text,
                            size_t capacity, size_t *text_length);

/* Checks a recording.
 *
 * recording, length  The bytes of the recording, JSON in UTF-8, that are only read. A null pointer
 *                    stands for no bytes, whatever the length. No bytes are no JSON, status 2.
 * text, capacity     The buffer for the text, which is one line that ends with a newline, without a
 *                    zero byte after it. What it holds before the call doesn't matter. Only the
 *                    bytes of the text are written; with VKRAY_NO_ROOM and VKRAY_NO_MEMORY none is.
 *                    A null pointer stands for no room, whatever the capacity.
 * text_length        Is given the length of the text, also with VKRAY_NO_ROOM, and 0 with
 *                    VKRAY_NO_MEMORY. It may be null.
 *
 * Ownership: the caller owns all three, before and after the call; nothing of them is kept. What
 * the call allocates it frees before it returns.
 *
 * Threads: calls share nothing, so any threads may call at once, each with a buffer and a length of
 * its own; they may check the same recording. Not from a signal handler, nor from the child of a
 * fork of a process with threads.
 *
 * Errors: the status alone; errno is left to malloc. A call never ends the program or waits.
 */
static inline enum vkray_status vkray_check(const unsigned char *recording, size_t length,
                                            unsigned char *text, size_t capacity,
                                            size_t *text_length)
{
    unsigned char none[2] = {0, 0};
    size_t told = 0;
    unsigned status =
        vkray_check_slices(recording ? recording : none, recording ? length : 0,
                           text ? text : none + 1, text ? capacity : 0, &told);
    if (text_length) *text_length = told;
    return (enum vkray_status)status;
}

#ifdef __cplusplus
}
#endif

#endif
