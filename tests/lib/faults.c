/* Faults for a program, by LD_PRELOAD: for tests/faults, tests/faults_http, tests/power_loss and
   tests/by_hand/refuse_each. The variables:

   STORE, INPUTS   beginnings of paths: of the files of a store, and of files that are read
   FAULT           what is to fail: `allocation`, `read` (of a file of INPUTS), `change` (of a file of STORE: it is
                   made, a write, a sync, a cut, a second name, the loss of a name; and a sync of its folder), `look` (a
                   read of a file of STORE), `receive` (a read of a socket) or `send` (a write to one)
   AT              which of these, counted from 1
   ERROR           how it fails: a number of errno, 0 to kill the program in its place, or -1 for a `send` that takes
                   no byte
   TORN            the write before which the program is killed is made by half
   SHORT           a read of a file of INPUTS gives at most so many bytes, and a socket gives and takes at most so many
   COUNTS          a file into which is written at the end how many there were of each thing that FAULT names, in turn
   LOG             a file into which each change of a file of STORE is written, what is printed, and what a socket is
                   given; with how many allocations came before
   PAUSE           so many microseconds pass before each change of a file of STORE
   ROOM            the disk is full when files of STORE have grown by so many bytes
   LOOKS           into LOG is also written where a file of STORE is read (`look`) */
#define _GNU_SOURCE
#include <errno.h>
#include <dlfcn.h>
#include <fcntl.h>
#include <signal.h>
#include <stdarg.h>
#include <stdio.h>
#include <stdlib.h>
#include <string.h>
#include <sys/socket.h>
#include <sys/types.h>
#include <unistd.h>

enum kind { ALLOCATION, READ, CHANGE, LOOK, RECEIVE, SEND, KINDS };

static const char *const names[KINDS] = {"allocation", "read", "change", "look", "receive", "send"};
static unsigned long counts[KINDS], at, most, room, pause_before;
static enum kind failing = KINDS;
static int error, is_torn, is_small, has_looks, log_file = -1;
static const char *store, *inputs;

void *__libc_malloc(size_t);
void *__libc_calloc(size_t, size_t);
void *__libc_realloc(void *, size_t);
void *__libc_memalign(size_t, size_t);

#define NEXT(name) ((__typeof__(&name))dlsym(RTLD_NEXT, #name))

#define MOST_SOCKETS 4096

static unsigned long number(const char *name)
{
    const char *text = getenv(name);
    return text ? strtoul(text, NULL, 10) : 0;
}

__attribute__((constructor)) static void begin(void)
{
    const char *fault = getenv("FAULT"), *log = getenv("LOG");
    for (enum kind kind = 0; fault && kind < KINDS; kind++)
        if (strcmp(fault, names[kind]) == 0)
            failing = kind;
    store = getenv("STORE");
    inputs = getenv("INPUTS");
    at = number("AT");
    most = number("SHORT");
    error = number("ERROR");
    is_torn = number("TORN");
    pause_before = number("PAUSE");
    is_small = getenv("ROOM") != NULL;
    room = number("ROOM");
    has_looks = number("LOOKS");
    if (log)
        log_file = open(log, O_WRONLY | O_CREAT | O_TRUNC, 0600);
    memset(counts, 0, sizeof counts);
}

__attribute__((destructor)) static void end(void)
{
    const char *path = getenv("COUNTS");
    char text[200];
    int file = path ? open(path, O_WRONLY | O_CREAT | O_TRUNC, 0600) : -1;
    if (file >= 0) {
        int length = snprintf(text, sizeof text, "%lu %lu %lu %lu %lu %lu\n", counts[ALLOCATION], counts[READ],
                              counts[CHANGE], counts[LOOK], counts[RECEIVE], counts[SEND]);
        NEXT(write)(file, text, length);
        close(file);
    }
}

/* Whether this one is to fail. Where the program is to be killed, it is. */
static int fails(enum kind kind)
{
    counts[kind]++;
    if (kind == CHANGE && pause_before)
        usleep(pause_before);
    if (kind != failing || counts[kind] != at)
        return 0;
    if (error == 0)
        kill(getpid(), SIGKILL);
    errno = error;
    return 1;
}

/* Whether the next change is one that is made by half. */
static int is_half(void)
{
    return is_torn && failing == CHANGE && counts[CHANGE] + 1 == at;
}

/* Whether a path is that of a file of STORE. */
static int is_stored(const char *path)
{
    char folder[4096], whole[8300];
    if (!store)
        return 0;
    if (path[0] == '/')
        return strncmp(path, store, strlen(store)) == 0;
    if (!getcwd(folder, sizeof folder))
        return 0;
    snprintf(whole, sizeof whole, "%s/%s", folder, path);
    return strncmp(whole, store, strlen(store)) == 0;
}

static int has_path(int file, const char *beginning)
{
    char link[40], path[4096];
    int before = errno;
    ssize_t length;
    snprintf(link, sizeof link, "/proc/self/fd/%d", file);
    length = readlink(link, path, sizeof path - 1);
    errno = before;
    if (!beginning || length < 0)
        return 0;
    path[length] = 0;
    return strncmp(path, beginning, strlen(beginning)) == 0;
}

/* Whether it is the folder of STORE. */
static int is_folder(int file)
{
    const char *last = store ? strrchr(store, '/') : NULL;
    char link[40], path[4096];
    ssize_t length;
    snprintf(link, sizeof link, "/proc/self/fd/%d", file);
    length = last ? readlink(link, path, sizeof path) : -1;
    return length >= 0 && length == last - store && strncmp(path, store, length) == 0;
}

/* Writes a change into the log: what it is, of which file, where, how long, how many allocations came before, and the
   bytes. */
static void keep_of(const char *what, const char *path, off_t place, const void *bytes, size_t length)
{
    char text[4200];
    if (log_file < 0)
        return;
    NEXT(write)(log_file, text, snprintf(text, sizeof text, "%s %s %ld %zu %lu\n", what, path, (long)place, length,
                                           counts[ALLOCATION]));
    if (bytes)
        NEXT(write)(log_file, bytes, length);
}

static void keep(const char *what, int file, off_t place, const void *bytes, size_t length)
{
    char link[40], path[4096];
    ssize_t found;
    snprintf(link, sizeof link, "/proc/self/fd/%d", file);
    found = readlink(link, path, sizeof path - 1);
    path[found < 0 ? 0 : found] = 0;
    keep_of(what, path, place, bytes, length);
}

/* How many bytes of a write the disk has room for; a fault, where it is full. Bytes that a file has take no more room. */
static ssize_t fitting(int file, off64_t place, size_t length)
{
    off64_t end = is_small ? lseek64(file, 0, SEEK_END) : 0;
    size_t grows = place + (off64_t)length > end ? place + length - end : 0;
    size_t lacks = is_small && grows > room ? grows - room : 0;
    if (lacks && lacks >= length) {
        errno = ENOSPC;
        return -1;
    }
    room -= is_small ? grows - lacks : 0;
    return length - lacks;
}

/* Whether a read of a file fails that is one of STORE. */
static int look_fails(int file, off_t place)
{
    if (!has_path(file, store))
        return 0;
    if (has_looks)
        keep("look", file, place, NULL, 0);
    return fails(LOOK);
}

void *malloc(size_t size)
{
    return fails(ALLOCATION) ? NULL : __libc_malloc(size);
}

void *calloc(size_t count, size_t size)
{
    return fails(ALLOCATION) ? NULL : __libc_calloc(count, size);
}

void *realloc(void *old, size_t size)
{
    return fails(ALLOCATION) ? NULL : __libc_realloc(old, size);
}

void *aligned_alloc(size_t alignment, size_t size)
{
    return fails(ALLOCATION) ? NULL : __libc_memalign(alignment, size);
}

int posix_memalign(void **made, size_t alignment, size_t size)
{
    void *found = fails(ALLOCATION) ? NULL : __libc_memalign(alignment, size);
    if (!found)
        return ENOMEM;
    *made = found;
    return 0;
}

ssize_t read(int file, void *bytes, size_t length)
{
    if (has_path(file, inputs)) {
        if (fails(READ))
            return -1;
        if (most && length > most)
            length = most;
    } else if (look_fails(file, 0)) {
        return -1;
    }
    return NEXT(read)(file, bytes, length);
}

/* Whether something was sent to a socket since it was looked at: what is read then is read away. */
static char is_answered[MOST_SOCKETS];

/* Whether a read would wait, of a socket that does not. */
static int has_nothing(int socket)
{
    char byte;
    return (fcntl(socket, F_GETFL) & O_NONBLOCK) && NEXT(recv)(socket, &byte, 1, MSG_PEEK) < 0 && errno == EAGAIN;
}

/* A look at what has come is no read, nor is one that finds nothing, or that reads away what comes behind a response: how
   many there are depends on when the client sends and ends. */
ssize_t recv(int socket, void *bytes, size_t length, int flags)
{
    if (flags & MSG_PEEK)
        is_answered[socket % MOST_SOCKETS] = 0;
    if ((flags & MSG_PEEK) || is_answered[socket % MOST_SOCKETS] || has_nothing(socket))
        return NEXT(recv)(socket, bytes, length, flags);
    if (fails(RECEIVE))
        return -1;
    return NEXT(recv)(socket, bytes, most && length > most ? most : length, flags);
}

ssize_t send(int socket, const void *bytes, size_t length, int flags)
{
    is_answered[socket % MOST_SOCKETS] = 1;
    if (fails(SEND))
        return error < 0 ? 0 : -1;
    if (most && length > most)
        length = most;
    keep("send", socket, 0, bytes, length);
    return NEXT(send)(socket, bytes, length, flags);
}

int open(const char *path, int flags, ...)
{
    int is_new = (flags & O_CREAT) && is_stored(path) && access(path, F_OK) != 0, file;
    va_list rest;
    if (is_new && fails(CHANGE))
        return -1;
    va_start(rest, flags);
    file = NEXT(open)(path, flags, flags & (O_CREAT | O_TMPFILE) ? va_arg(rest, mode_t) : 0);
    va_end(rest);
    if (is_new && file >= 0)
        keep("make", file, 0, NULL, 0);
    return file;
}

int link(const char *old, const char *new)
{
    int is_ours = is_stored(old) && is_stored(new), made;
    const char *name = strrchr(old, '/');
    if (is_ours && fails(CHANGE))
        return -1;
    made = NEXT(link)(old, new);
    name = name ? name + 1 : old;
    if (is_ours && made == 0)
        keep_of("link", new, 0, name, strlen(name));
    return made;
}

int unlink(const char *path)
{
    int is_ours = is_stored(path), gone;
    if (is_ours && fails(CHANGE))
        return -1;
    gone = NEXT(unlink)(path);
    if (is_ours && gone == 0)
        keep_of("unlink", path, 0, NULL, 0);
    return gone;
}

ssize_t pread64(int file, void *bytes, size_t length, off64_t place)
{
    if (look_fails(file, place))
        return -1;
    return NEXT(pread64)(file, bytes, length, place);
}

ssize_t pread(int file, void *bytes, size_t length, off_t place)
{
    return pread64(file, bytes, length, place);
}

ssize_t pwrite64(int file, const void *bytes, size_t length, off64_t place)
{
    ssize_t fits = length;
    if (has_path(file, store)) {
        if (is_half())
            NEXT(pwrite64)(file, bytes, length / 2, place);
        if (fails(CHANGE))
            return -1;
        fits = fitting(file, place, length);
        if (fits < 0)
            return -1;
        keep("write", file, place, bytes, fits);
    }
    return NEXT(pwrite64)(file, bytes, fits, place);
}

ssize_t pwrite(int file, const void *bytes, size_t length, off_t place)
{
    return pwrite64(file, bytes, length, place);
}

ssize_t write(int file, const void *bytes, size_t length)
{
    ssize_t fits = length;
    off_t place;
    if (has_path(file, store)) {
        if (is_half())
            NEXT(write)(file, bytes, length / 2);
        if (fails(CHANGE))
            return -1;
        place = lseek(file, 0, SEEK_CUR);
        fits = fitting(file, place, length);
        lseek(file, place, SEEK_SET);
        if (fits < 0)
            return -1;
        keep("write", file, place, bytes, fits);
    } else if (file == STDOUT_FILENO) {
        keep("print", file, 0, bytes, length);
    }
    return NEXT(write)(file, bytes, fits);
}

int fsync(int file)
{
    if (has_path(file, store)) {
        if (fails(CHANGE))
            return -1;
        keep("sync", file, 0, NULL, 0);
    } else if (is_folder(file)) {
        if (fails(CHANGE))
            return -1;
        keep("folder", file, 0, NULL, 0);
    }
    return NEXT(fsync)(file);
}

int fdatasync(int file)
{
    if (has_path(file, store)) {
        if (fails(CHANGE))
            return -1;
        keep("sync", file, 0, NULL, 0);
    }
    return NEXT(fdatasync)(file);
}

int ftruncate64(int file, off64_t length)
{
    if (has_path(file, store)) {
        if (fails(CHANGE))
            return -1;
        keep("cut", file, length, NULL, 0);
    }
    return NEXT(ftruncate64)(file, length);
}

int ftruncate(int file, off_t length)
{
    return ftruncate64(file, length);
}
