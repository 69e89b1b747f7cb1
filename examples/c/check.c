/* Reads a recording from standard input, checks it, and prints the text: the program's word
 * `check` by the library for C. The exit status is that of the check. */
#include <stdio.h>
#include <stdlib.h>

#include "vkray.h"

int main(void)
{
    unsigned char *recording = NULL;
    size_t length = 0, room = 0, count;
    do {
        if (length == room) {
            room = room ? 2 * room : 65536;
            unsigned char *longer = realloc(recording, room);
            if (!longer) {
                free(recording);
                return VKRAY_NO_MEMORY;
            }
            recording = longer;
        }
        count = fread(recording + length, 1, room - length, stdin);
        length += count;
    } while (count > 0);

    unsigned char text[VKRAY_CHECK_TEXT];
    size_t text_length = 0;
    enum vkray_status status = vkray_check(recording, length, text, sizeof text, &text_length);
    free(recording);
    if (status == VKRAY_NO_ROOM) fprintf(stderr, "the text needs %zu bytes\n", text_length);
    else fwrite(text, 1, text_length, stdout);
    return (int)status;
}
