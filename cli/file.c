/* Output files are written beside their place and renamed. */
#define _XOPEN_SOURCE 700
#include "cli.h"

#include <errno.h>
#include <fcntl.h>
#include <libgen.h>
#include <signal.h>
#include <stdlib.h>
#include <string.h>
#include <sys/stat.h>
#include <unistd.h>

/* Names that are NULL, and files that are not there, are the same as none. */
bool is_same_file(const char *path, const char *other)
{
    struct stat one, two;
    if (path == NULL || other == NULL)
        return false;
    return stat(path, &one) == 0 && stat(other, &two) == 0 && one.st_dev == two.st_dev && one.st_ino == two.st_ino;
}

/* The file that is being written, to be removed where a signal ends the program. Both change while those signals are held back. */
static volatile sig_atomic_t is_unfinished;
static const char *unfinished;

static void remove_unfinished(int number)
{
    if (is_unfinished)
        unlink(unfinished);
    raise(number); /* ends the program: the handler stands for one signal */
}

static const int ending[] = { SIGHUP, SIGINT, SIGTERM };

static void handle_signals(void)
{
    struct sigaction action = { .sa_handler = remove_unfinished, .sa_flags = (int)SA_RESETHAND }, before;
    sigemptyset(&action.sa_mask);
    for (size_t i = 0; i < sizeof ending / sizeof ending[0]; i++)
        if (sigaction(ending[i], NULL, &before) == 0 && before.sa_handler != SIG_IGN)
            sigaction(ending[i], &action, NULL);
    signal(SIGXFSZ, SIG_IGN); /* a file over the limit of the shell is an error of write */
}

/* Holds back the signals that end the program, or lets them come. */
static void hold_signals(bool hold)
{
    sigset_t signals;
    sigemptyset(&signals);
    for (size_t i = 0; i < sizeof ending / sizeof ending[0]; i++)
        sigaddset(&signals, ending[i]);
    sigprocmask(hold ? SIG_BLOCK : SIG_UNBLOCK, &signals, NULL);
}

/* Makes a file of a name of its own, which is removed if the program ends before it is finished. */
static int make_unfinished(char *name)
{
    hold_signals(true);
    int file = mkstemp(name);
    unfinished = name;
    is_unfinished = file >= 0;
    hold_signals(false);
    return file;
}

/* Renames the file or removes it: from then on it is finished. */
static bool finish(const char *name, const char *path, bool written)
{
    hold_signals(true);
    bool done = written && rename(name, path) == 0;
    int reason = errno;
    if (!done)
        unlink(name);
    is_unfinished = false;
    hold_signals(false);
    errno = reason;
    return done;
}

static bool write_all(int file, const uint8_t *bytes, size_t length)
{
    while (length > 0) {
        ssize_t written = write(file, bytes, length);
        if (written < 0 && errno == EINTR)
            continue;
        if (written <= 0)
            return false;
        bytes += written;
        length -= (size_t)written;
    }
    return true;
}

/* The permissions of a file that is replaced, or those that a new file gets. */
static mode_t mode_of(const char *path)
{
    struct stat found;
    if (stat(path, &found) == 0)
        return found.st_mode & 0777;
    mode_t mask = umask(0);
    umask(mask);
    return 0666 & ~mask;
}

/* Writes the file beside its place, under a name of its own, then renames it. */
static bool write_beside(const char *path, const void *bytes, size_t length)
{
    static const char name[] = "/.lanyardrove-XXXXXX";
    char *folder = strdup(path);
    char *beside = malloc(strlen(path) + sizeof name + 1);
    bool done = false;
    if (folder != NULL && beside != NULL) {
        sprintf(beside, "%s%s", dirname(folder), name);
        handle_signals();
        int file = make_unfinished(beside);
        if (file >= 0) {
            bool written = write_all(file, bytes, length) && fchmod(file, mode_of(path)) == 0 && fsync(file) == 0;
            written = close(file) == 0 && written;
            done = finish(beside, path, written);
        }
    }
    int reason = errno;
    free(folder);
    free(beside);
    errno = reason;
    return done;
}

/* Standard output or a device is written where it stands. */
static bool write_device(int file, const void *bytes, size_t length)
{
    bool done = file >= 0 && write_all(file, bytes, length);
    int reason = errno;
    if (file > STDOUT_FILENO)
        done = close(file) == 0 && done;
    errno = reason;
    return done;
}

/* A symbolic link stays one; where it leads nowhere, nothing says where the file should be. */
static bool write_regular(const char *path, bool there, const void *bytes, size_t length)
{
    struct stat link;
    if (!there && lstat(path, &link) == 0) {
        errno = ENOENT;
        return false;
    }
    char *real = realpath(path, NULL);
    bool done = (!there || access(path, W_OK) == 0) && write_beside(real != NULL ? real : path, bytes, length);
    int reason = errno;
    free(real);
    errno = reason;
    return done;
}

/* Writes a file whole or not at all; "-" is standard output. */
bool file_write(const char *path, const void *bytes, size_t length)
{
    struct stat found;
    bool standard = strcmp(path, "-") == 0, done;
    bool there = !standard && stat(path, &found) == 0;
    fflush(stdout); /* what is printed before goes there first */
    if (standard)
        done = write_device(STDOUT_FILENO, bytes, length);
    else if (there && !S_ISREG(found.st_mode))
        done = write_device(open(path, O_WRONLY | O_NOCTTY), bytes, length);
    else
        done = write_regular(path, there, bytes, length);
    if (!done)
        complain("%s: %s", standard ? "standard output" : path, strerror(errno));
    return done;
}
