/* The words given to the command `rate`. */
#ifndef WORDS_H
#define WORDS_H

#include <stdbool.h>

struct words {
    char **files; /* what is to be read, in order, ended by NULL; `-` is standard input */
    bool progress;
};

/* Takes the words in; from then on a closed pipe ends the process. Where they ask for a text (--help, --version), or are none of the command's, it ends the process:
 * status 0, 1 where the text cannot be written, 2 for words that are none. */
struct words take_words(char **argv);

#endif
