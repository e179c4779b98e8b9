/* The simulator of readers and tags as a library: one call over memory.
 *
 * The words are those of the program gen2run, as one text with a space between two of them: "decode", "run trace", "gen 7 64". The input is what
 * the program reads from its standard input, the output what it writes to its standard output; docs/FORMATS.md has both, line by line.
 *
 * No pointer may be null, also where a length is 0, and the four places may not overlap. Nothing is kept between two calls, and two threads may call
 * at a time. The call takes memory by malloc and realloc, and gives all of it back by free before it ends.
 */
#ifndef GEN2RUN_H
#define GEN2RUN_H

#include <stddef.h>
#include <stdint.h>

#ifdef __cplusplus
extern "C" {
#endif

/* What the call answers: the exit statuses of the program. There is none for a read that fails, since reading memory doesn't fail. */
enum {
    /* The whole text was written. */
    GEN2RUN_DONE = 0,
    /* The words ask for nothing. Nothing was written. */
    GEN2RUN_BAD_WORDS = 2,
    /* The input is faulty: the one line `fault LINE REASON` was written. */
    GEN2RUN_BAD_INPUT = 3,
    /* The output has no room for the whole text: it is full of the front of it. How much room is needed isn't known before, so call again with
     * more. */
    GEN2RUN_NO_ROOM = 5,
    /* The input has more than 16,777,216 bytes. Nothing was written. */
    GEN2RUN_TOO_LONG = 6,
    /* There was no memory. The front of the text was written, maybe none of it. Words that ask for nothing, and an input that is too long, are told
     * without taking memory. */
    GEN2RUN_NO_MEMORY = 7,
    /* A word isn't UTF-8. Nothing was written. */
    GEN2RUN_UNREADABLE_WORDS = 8
};

/* Does what the words ask for, and answers one of the above. `written` is then how many bytes stand at the front of the output. */
uint32_t gen2run_over_memory(const uint8_t *words, size_t words_length, const uint8_t *input, size_t input_length, uint8_t *output,
                             size_t room, size_t *written);

/* The version of the library as one number: 1,000,000 for each major version, 1,000 for each minor one, and 1 for each patch. As long as the first of
 * these stands, words and inputs that are done keep their outputs; docs/FORMATS.md says what may change. The words "--version" write the same as
 * a text, with what the library was proved with, or that it wasn't. */
uint32_t gen2run_version(void);

#ifdef __cplusplus
}
#endif
#endif
