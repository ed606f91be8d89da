/* Takes in the words given to the command `rate`, and answers those that ask for no rating. */
#define _POSIX_C_SOURCE 200809L
#include "words.h"

#include <errno.h>
#include <signal.h>
#include <stdio.h>
#include <stdlib.h>
#include <string.h>

static const char USAGE[] = "usage: rate [--progress] [FILE...]\n";

static const char HELP[] =
    "\n"
    "Reads request lines, and writes one answer line for each, in order.\n"
    "\n"
    "  FILE        read in turn, as one run; `-`, or no FILE: standard input\n"
    "  --progress  show on a terminal how many bytes are answered, while the\n"
    "              answers go elsewhere\n"
    "  --help      show this text\n"
    "  --version   show the version\n"
    "  --          what follows are files\n"
    "\n"
    "Status: 0 where all was read and every answer written, 1 where reading or\n"
    "writing failed, 2 for words that are none of these. `man rate` has the lines.\n";

static char *STANDARD_INPUT[] = {"-", NULL};

_Noreturn static void tell(const char *text, const char *more)
{
    if (fputs(text, stdout) < 0 || fputs(more, stdout) < 0 || fclose(stdout) != 0) {
        fprintf(stderr, "rate: standard output: %s\n", strerror(errno));
        exit(1);
    }
    exit(0);
}

_Noreturn static void refuse(const char *word)
{
    fprintf(stderr, "rate: unknown option %s\n%s", word, USAGE);
    exit(2);
}

static void take_option(struct words *words, const char *word)
{
    if (strcmp(word, "--progress") == 0)
        words->progress = true;
    else if (strcmp(word, "--help") == 0)
        tell(USAGE, HELP);
    else if (strcmp(word, "--version") == 0)
        tell("rate (Imbrolt) " VERSION, "\n");
    else
        refuse(word);
}

/* A closed pipe ends this command as it ends others, also where it was started with that signal ignored. */
static void end_by_closed_pipe(void)
{
    sigset_t closed_pipe;
    signal(SIGPIPE, SIG_DFL);
    sigemptyset(&closed_pipe);
    sigaddset(&closed_pipe, SIGPIPE);
    sigprocmask(SIG_UNBLOCK, &closed_pipe, NULL);
}

struct words take_words(char **argv)
{
    end_by_closed_pipe();
    struct words words = {argv + 1, false};
    char **end = words.files; /* files are moved together, in their order */
    bool options = true;
    for (char **word = argv + (*argv != NULL); *word != NULL; word++) {
        if (options && strcmp(*word, "--") == 0)
            options = false;
        else if (options && (*word)[0] == '-' && (*word)[1] != '\0')
            take_option(&words, *word);
        else
            *end++ = *word;
    }
    if (end == words.files)
        words.files = STANDARD_INPUT;
    else
        *end = NULL;
    return words;
}
