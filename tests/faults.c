/* faults: a library to preload that lets one call of a program fail, or kills the program there.
 *
 *   FAULT=CALL:NUMBER:WHAT
 *
 * CALL is open, read, write, lseek, fsync, close, rename, ftruncate or exit. NUMBER counts the program's calls from 1;
 * 'odd' is every second call, so that each one that is tried again goes through; 'all' is each call.
 * WHAT is one of
 *   EIO, ENOSPC, ..   the call fails with this error and does nothing
 *   half              a read or write of half the bytes, mostly an odd number of them
 *   kill, half-kill   the program is killed before the call, or after half the bytes
 *   unsynced          the call fails with EIO if a power failure now could lose what it should not: a
 *                     rename, something written; a close, something written into this file; a read
 *                     of standard input, the new name of a file that was made or renamed; an exit,
 *                     which then has the status 5, EIO's number, such a name, too
 * x86-64, Linux. */
#include <errno.h>
#include <fcntl.h>
#include <libgen.h>
#include <signal.h>
#include <stdarg.h>
#include <stdio.h>
#include <stdlib.h>
#include <string.h>
#include <sys/stat.h>
#include <sys/syscall.h>
#include <unistd.h>

static const struct { const char *name; int number; } errors[] = {
    {"EINTR", EINTR}, {"EAGAIN", EAGAIN}, {"EIO", EIO}, {"ENOSPC", ENOSPC}, {"EPIPE", EPIPE}, {"EACCES", EACCES},
};

/* The files that have been written and not synced since, a bit for each. */
static unsigned long unsynced;

/* The folders with names that are new since the folder was synced. */
static struct stat folders[8];
static int count;

/* A folder's place among them; the end if it is not there. */
static int place_of(const struct stat *folder)
{
    int j = 0;
    while (j < count && (folders[j].st_ino != folder->st_ino || folders[j].st_dev != folder->st_dev))
        j++;
    return j;
}

static void new_name(const char *name)
{
    struct stat folder;
    char *copy = strdup(name);
    if (copy == NULL || stat(dirname(copy), &folder) != 0 || count == 8)
        abort();
    if (place_of(&folder) == count)
        folders[count++] = folder;
    free(copy);
}

/* What is to happen at a call: NULL for nothing. */
static const char *fault(const char *call, long number)
{
    static char which[20], what[20];
    const char *word = getenv("FAULT");
    size_t length = strlen(call);
    if (word == NULL || strncmp(word, call, length) != 0 || word[length] != ':')
        return NULL;
    if (sscanf(word + length, ":%19[^:]:%19s", which, what) != 2)
        abort();
    int now = strcmp(which, "odd") == 0 ? number % 2 == 1 : number == atol(which);
    return now || strcmp(which, "all") == 0 ? what : NULL;
}

/* The same, where 'unsynced' is a fault only if something is lost. */
static const char *fault_if(const char *call, long number, int lost)
{
    const char *what = fault(call, number);
    if (what == NULL || strcmp(what, "unsynced") != 0)
        return what;
    return lost ? "EIO" : NULL;
}

/* The fault in place of the call. */
static long fail(const char *what)
{
    if (strcmp(what, "kill") == 0)
        kill(getpid(), SIGKILL);
    for (size_t j = 0; j < sizeof errors / sizeof errors[0]; j++)
        if (strcmp(what, errors[j].name) == 0) {
            errno = errors[j].number;
            return -1;
        }
    abort();
}

/* A read or write, whole or half. */
static long transfer(long call, const char *what, int file, const void *bytes, size_t length)
{
    if (what == NULL)
        return syscall(call, file, bytes, length);
    if (strncmp(what, "half", 4) != 0)
        return fail(what);
    long moved = syscall(call, file, bytes, length > 1 ? length / 2 | 1 : length);
    return strcmp(what, "half-kill") == 0 ? fail("kill") : moved;
}

int open(const char *name, int flags, ...)
{
    static long number;
    const char *what = fault("open", ++number);
    va_list more;
    va_start(more, flags);
    int mode = flags & O_CREAT ? va_arg(more, int) : 0;
    va_end(more);
    int made = (flags & O_CREAT) != 0 && access(name, F_OK) != 0;
    long file = what ? fail(what) : syscall(SYS_openat, AT_FDCWD, name, flags, mode);
    if (made && file >= 0)
        new_name(name);
    return (int)file;
}

ssize_t read(int file, void *bytes, size_t room)
{
    static long number;
    return transfer(SYS_read, fault_if("read", ++number, file == STDIN_FILENO && count > 0), file, bytes, room);
}

ssize_t write(int file, const void *bytes, size_t length)
{
    static long number;
    unsynced |= 1UL << file;
    return transfer(SYS_write, fault("write", ++number), file, bytes, length);
}

off_t lseek(int file, off_t place, int whence)
{
    static long number;
    const char *what = fault("lseek", ++number);
    return what ? fail(what) : syscall(SYS_lseek, file, place, whence);
}

int fsync(int file)
{
    static long number;
    const char *what = fault("fsync", ++number);
    struct stat about;
    if (what)
        return (int)fail(what);
    unsynced &= ~(1UL << file);
    if (fstat(file, &about) == 0 && place_of(&about) < count)
        folders[place_of(&about)] = folders[--count];
    return (int)syscall(SYS_fsync, file);
}

int close(int file)
{
    static long number;
    const char *what = fault_if("close", ++number, (unsynced >> file & 1) != 0);
    return (int)(what ? fail(what) : syscall(SYS_close, file));
}

int rename(const char *from, const char *to)
{
    static long number;
    const char *what = fault_if("rename", ++number, unsynced != 0);
    if (what)
        return (int)fail(what);
    new_name(to);
    return (int)syscall(SYS_rename, from, to);
}

int ftruncate(int file, off_t length)
{
    static long number;
    const char *what = fault("ftruncate", ++number);
    unsynced |= 1UL << file;
    return (int)(what ? fail(what) : syscall(SYS_ftruncate, file, length));
}

/* The end of the program, by exit or by main's return. */
__attribute__((destructor)) static void ended(void)
{
    const char *what = fault_if("exit", 1, count > 0);
    if (what != NULL && fail(what) != 0)
        _exit(errno);
}
