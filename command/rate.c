/*
 * The command `rate`: what stands around the proved program.
 *
 * The proved program (crates/rate) reads standard input and writes standard output by read and write of the C library;
 * it takes no words and sets no status. It is linked with this file, which the linker puts in front of these
 * (--wrap): main takes the words in and gives the status, read goes from file to file, and write says why it failed.
 * The bytes go where they went before: from the file into the program's buffer, and from there to the output. Before
 * its main the program has a closed pipe answered by an error; that call is left out, since one ends this command.
 */
#define _POSIX_C_SOURCE 200809L
#include "words.h"

#include <ctype.h>
#include <errno.h>
#include <fcntl.h>
#include <poll.h>
#include <signal.h>
#include <stdio.h>
#include <string.h>
#include <sys/stat.h>
#include <time.h>
#include <unistd.h>

int __real_main(void);
ssize_t __real_read(int file, void *bytes, size_t room);
ssize_t __real_write(int file, const void *bytes, size_t count);
typedef void handler(int signal);
handler *__real___sysv_signal(int which, handler *now);

static char **to_read;          /* the files that are to be read, after the present one */
static const char *name = NULL; /* the present one, NULL before the first */
static int input = -1;          /* open for reading it */
static char last_byte = '\n';   /* that was read */
static bool ended = false;      /* all files were read to their ends */
static bool failed = false;     /* a read or a write failed */

static struct {
    bool wanted;       /* on standard error */
    long long given;   /* bytes of all files, -1 where that is not known */
    long long had;     /* bytes that were read */
    const char *front; /* of the program's buffer */
    long long at;      /* when it was shown last, in milliseconds; 0 where the line is not one of its */
} progress;

static bool is_standard_input(const char *file)
{
    return strcmp(file, "-") == 0;
}

/* Names a file on standard error; what would move a terminal's cursor is shown as a question mark. */
static void put_name(const char *file)
{
    if (is_standard_input(file))
        file = "standard input";
    else if (*file == '\0')
        file = "''";
    for (; *file != '\0'; file++)
        fputc(iscntrl((unsigned char)*file) ? '?' : *file, stderr);
}

/* Ends the line on which progress is shown. */
static void end_progress(void)
{
    if (progress.at != 0)
        fputc('\n', stderr);
    progress.at = 0;
}

static void complain(const char *about, const char *why)
{
    failed = true;
    end_progress();
    fputs("rate: ", stderr);
    put_name(about);
    fprintf(stderr, ": %s\n", why);
}

static void warn_of_joined_line(const char *before, const char *after)
{
    end_progress();
    fputs("rate: ", stderr);
    put_name(before);
    fputs(" ends without a line feed: its last line goes on in ", stderr);
    put_name(after);
    fputc('\n', stderr);
}

/* Shows how many bytes are answered, five times a second at most. */
static void show_progress(long long answered, bool now)
{
    struct timespec time;
    if (!progress.wanted)
        return;
    clock_gettime(CLOCK_MONOTONIC, &time);
    long long at = time.tv_sec * 1000LL + time.tv_nsec / 1000000;
    if (!now && at < progress.at + 200)
        return;
    progress.at = at;
    if (progress.given < answered) /* not known, or a file that does not tell its size */
        fprintf(stderr, "\rrate: %lld bytes answered", answered);
    else
        fprintf(stderr, "\rrate: %lld of %lld bytes answered", answered, progress.given);
}

/* Goes on to the next file; false where there is none, or where it cannot be opened. */
static bool open_next(void)
{
    if (input > STDIN_FILENO)
        close(input);
    const char *before = name;
    name = *to_read;
    ended = name == NULL;
    if (ended)
        return false;
    to_read++;
    if (last_byte != '\n')
        warn_of_joined_line(before, name);
    input = is_standard_input(name) ? STDIN_FILENO : open(name, O_RDONLY | O_CLOEXEC);
    if (input < 0)
        complain(name, strerror(errno));
    return input >= 0;
}

/* Whether a call that failed is to be made again: a signal came, or the file is one that does not wait. */
static bool again(int file, short event)
{
    struct pollfd waiting = {file, event, 0};
    if (errno == EAGAIN || errno == EWOULDBLOCK)
        return poll(&waiting, 1, -1) >= 0 || errno == EINTR;
    return errno == EINTR;
}

/* Reads more of the files, as if they were one: 0 only at the end of the last. */
ssize_t __wrap_read(int file, void *bytes, size_t room)
{
    (void)file;
    if (progress.front == NULL)
        progress.front = bytes;
    /* what stands before the place to read to is a piece of a line, which waits for the rest of it */
    show_progress(progress.had - ((const char *)bytes - progress.front), false);
    for (;;) {
        ssize_t got = name == NULL ? 0 : __real_read(input, bytes, room);
        if (got > 0) {
            progress.had += got;
            last_byte = ((const char *)bytes)[got - 1];
            return got;
        }
        if (got == 0 && !open_next())
            return ended ? 0 : -1;
        if (got < 0 && !again(input, POLLIN)) {
            complain(name, strerror(errno));
            return -1;
        }
    }
}

/* Writes all of the bytes, or fails. The program's own words on a failure are left out: they were said, with the reason. */
ssize_t __wrap_write(int file, const void *bytes, size_t count)
{
    if (file == STDERR_FILENO)
        return (ssize_t)count;
    for (size_t done = 0; done < count;) {
        ssize_t put = __real_write(file, (const char *)bytes + done, count - done);
        if (put == 0)
            errno = EIO; /* nothing was written, and no reason given */
        if (put > 0) {
            done += (size_t)put;
        } else if (!again(file, POLLOUT)) {
            complain("standard output", strerror(errno));
            return -1;
        }
    }
    return (ssize_t)count;
}

/* Has no signal ignored, and says that it did what it does by itself. */
handler *__wrap___sysv_signal(int which, handler *now)
{
    return now == SIG_IGN ? SIG_DFL : __real___sysv_signal(which, now);
}

/* Adds the bytes of a file to those that are given: standard input once, from where it stands. */
static void add_to_given(const char *file, const struct stat *status)
{
    static bool had_standard_input = false;
    off_t at = 0;
    if (is_standard_input(file)) {
        if (had_standard_input)
            return;
        had_standard_input = true;
        at = lseek(STDIN_FILENO, 0, SEEK_CUR);
    }
    if (!S_ISREG(status->st_mode))
        progress.given = -1;
    else if (progress.given >= 0 && at < status->st_size)
        progress.given += status->st_size - at;
}

/* Why a file cannot be read, as far as that is known before it is opened; NULL where nothing speaks against it. */
static const char *objection(const char *file, const struct stat *output)
{
    struct stat status;
    int found = is_standard_input(file) ? fstat(STDIN_FILENO, &status) : stat(file, &status);
    if (found != 0)
        return strerror(errno);
    if (S_ISDIR(status.st_mode))
        return strerror(EISDIR);
    if (!is_standard_input(file) && access(file, R_OK) != 0)
        return strerror(errno);
    if (!is_standard_input(file) && S_ISSOCK(status.st_mode))
        return strerror(ENXIO);
    if (S_ISREG(status.st_mode) && status.st_dev == output->st_dev && status.st_ino == output->st_ino)
        return "it is the output, too";
    add_to_given(file, &status);
    return NULL;
}

/* Looks at every file before the first answer is written. */
static void look_at(char **files)
{
    struct stat output;
    if (fstat(STDOUT_FILENO, &output) != 0)
        memset(&output, 0, sizeof output);
    for (; *files != NULL; files++) {
        const char *why = objection(*files, &output);
        if (why != NULL)
            complain(*files, why);
    }
}

int __wrap_main(int argc, char **argv)
{
    (void)argc;
    struct words words = take_words(argv);
    look_at(words.files);
    if (failed)
        return 1;
    to_read = words.files;
    progress.wanted = words.progress && isatty(STDERR_FILENO) && !isatty(STDOUT_FILENO);
    __real_main();
    if (!failed && close(STDOUT_FILENO) != 0)
        complain("standard output", strerror(errno));
    if (failed || !ended)
        return 1;
    show_progress(progress.had, true);
    end_progress();
    return 0;
}
