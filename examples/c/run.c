/* Runs a recording of a file by the program vkray, and prints its text: ./run VKRAY FILE WORDS..
 * The exit status is that of the program. */
#define _GNU_SOURCE
#include <stdio.h>

#include "vkray_run.h"

int main(int count, char **told)
{
    FILE *file = count > 3 ? fopen(told[2], "rb") : NULL;
    if (!file || fseek(file, 0, SEEK_END)) return VKRAY_READ_FAULT;
    long length = ftell(file);
    unsigned char *recording = malloc(length > 0 ? (size_t)length : 1), *text;
    size_t text_length;
    rewind(file);
    if (!recording || length < 0 || fread(recording, 1, (size_t)length, file) != (size_t)length)
        return VKRAY_READ_FAULT;
    fclose(file);

    const char *const *words = (const char *const *)told + 3;
    int status = vkray_run(told[1], words, recording, (size_t)length, &text, &text_length);
    if (text) fwrite(text, 1, text_length, stdout);
    free(text);
    free(recording);
    return status;
}
