/* The program gen2run in C, over the library: the words are its arguments, the input is the standard input. docs/GUIDE.md says how to build it. */
#include <stdio.h>
#include <stdlib.h>
#include <string.h>

#include "gen2run.h"

enum { READ_FAULT = 4, WRITE_FAULT = 5 };

/* Gives as much memory as is asked for, at least one byte, or ends. */
static uint8_t *grown(uint8_t *old, size_t size) {
    uint8_t *new = realloc(old, size + 1);
    if (!new) exit(GEN2RUN_NO_MEMORY);
    return new;
}

/* Joins the words by spaces. */
static uint8_t *joined(int count, char **words, size_t *length) {
    uint8_t *text = grown(NULL, 0);
    for (int at = 0; at < count; at++) {
        size_t more = strlen(words[at]);
        text = grown(text, *length + more + 1);
        if (at > 0) text[(*length)++] = ' ';
        memcpy(text + *length, words[at], more);
        *length += more;
    }
    return text;
}

/* Reads the standard input to its end. */
static uint8_t *all_input(size_t *length) {
    uint8_t *bytes = NULL;
    for (size_t size = 4096;; size *= 2) {
        bytes = grown(bytes, size);
        *length += fread(bytes + *length, 1, size - *length, stdin);
        if (ferror(stdin)) exit(READ_FAULT);
        if (*length < size) return bytes;
    }
}

int main(int count, char **words) {
    size_t words_length = 0, input_length = 0, written;
    uint8_t *text = joined(count - 1, words + 1, &words_length);
    uint8_t *input = all_input(&input_length), *output = NULL;
    uint32_t status = GEN2RUN_NO_ROOM;
    for (size_t room = 4096; status == GEN2RUN_NO_ROOM; room *= 4) {
        output = grown(output, room);
        status = gen2run_over_memory(text, words_length, input, input_length, output, room, &written);
    }
    if (fwrite(output, 1, written, stdout) < written || fflush(stdout)) status = WRITE_FAULT;
    free(text);
    free(input);
    free(output);
    return (int)status;
}
