/* Stands before the calls of the C library (LD_PRELOAD), and lets memory, devices, locks and the clock do what a test asks for:

   BB_REFUSE=N       the Nth request for memory is refused, with BB_REFUSE_ALL each from it on; each refusal writes a byte to the
                     file descriptor BB_REFUSED, if that is set
   BB_DEVICE=A N E S of a device (INPUT, ANSWERS, FAULTS, FILES that are written, READING of files, SOCKETS): it moves at most A
                     bytes at once (-1: any number), and from the Nth call on it fails with error E (0: never); of the first that
                     fails S halves are done. Once files have failed, none is opened for writing any more.
   BB_SEALED=PATH    can't be opened for writing; BB_FIXED=PATH is no plain file to who asks its name; BB_LOCKED=PATH is locked
   BB_CLOCK=N        the clock is the shim's: it begins at 0, goes on by N milliseconds when it is read, and by a sleep's length
   BB_TAKEN=1        the program ends with status 0 at its first call for input, files, sockets or the clock: its words were taken
   BB_RECORD=FD      the calls are written there, a line each, as stress/cases.py says
   BB_SCRIPT=FD      before events of sockets are awaited, a message asks what comes: `g` something was sent, `t S` it is second
                     S, `r` sockets take bytes again, `f` waiting fails */
#define _GNU_SOURCE
#include <dlfcn.h>
#include <errno.h>
#include <fcntl.h>
#include <netdb.h>
#include <stdarg.h>
#include <stdint.h>
#include <stdio.h>
#include <stdlib.h>
#include <string.h>
#include <sys/epoll.h>
#include <sys/file.h>
#include <sys/socket.h>
#include <sys/stat.h>
#include <time.h>
#include <unistd.h>

#define REAL(result, name, ...) \
    static result (*real)(__VA_ARGS__); \
    if (!real) \
        real = (result (*)(__VA_ARGS__))dlsym(RTLD_NEXT, #name)

enum { INPUT, ANSWERS, FAULTS, FILES, READING, SOCKETS, NONE };
static const char *const NAMES[] = {"BB_INPUT", "BB_ANSWERS", "BB_FAULTS", "BB_FILES", "BB_READING", "BB_SOCKETS"};

struct device {
    long at_once, due, calls;
    int error, halves, is_over;
};
static struct device devices[NONE + 1];

/* What is known of a file descriptor: its device, the path of a file, the place of a connection. */
#define MOST 1024
static struct {
    int device, place, is_full;
    uint64_t event;
    char path[256];
} open_ones[MOST];

static long refuse, requests;
static int refuses_all, refused_fd = -1, record_fd = -1, script_fd = -1, ends_once_taken, places;
static const char *sealed, *fixed, *locked;
static long step = -1;
static int64_t now;

static long number(const char *name, long none)
{
    const char *text = getenv(name);
    return text ? atol(text) : none;
}

__attribute__((constructor)) static void begin(void)
{
    for (int one = 0; one < MOST; one++)
        open_ones[one].device = one < FILES ? one : NONE;
    for (int one = 0; one < NONE; one++) {
        struct device *device = &devices[one];
        const char *text = getenv(NAMES[one]);
        device->at_once = -1;
        if (text)
            sscanf(text, "%ld %ld %d %d", &device->at_once, &device->due, &device->error, &device->halves);
    }
    refuse = number("BB_REFUSE", 0);
    refuses_all = getenv("BB_REFUSE_ALL") != NULL;
    refused_fd = number("BB_REFUSED", -1);
    record_fd = number("BB_RECORD", -1);
    script_fd = number("BB_SCRIPT", -1);
    ends_once_taken = getenv("BB_TAKEN") != NULL;
    step = number("BB_CLOCK", -1);
    sealed = getenv("BB_SEALED");
    fixed = getenv("BB_FIXED");
    locked = getenv("BB_LOCKED");
}

/* Memory. */

static int is_refused(void)
{
    if (!refuse || ++requests < refuse || (requests > refuse && !refuses_all))
        return 0;
    if (refused_fd >= 0 && write(refused_fd, "x", 1) < 0)
        refused_fd = -1;
    errno = ENOMEM;
    return 1;
}

#define ASKS(result, none, name, parameters, arguments, ...) \
    result name parameters \
    { \
        REAL(result, name, __VA_ARGS__); \
        return is_refused() ? none : real arguments; \
    }

ASKS(void *, NULL, malloc, (size_t size), (size), size_t)
ASKS(void *, NULL, realloc, (void *block, size_t size), (block, size), void *, size_t)
ASKS(void *, NULL, aligned_alloc, (size_t align, size_t size), (align, size), size_t, size_t)
ASKS(int, ENOMEM, posix_memalign, (void **block, size_t align, size_t size), (block, align, size), void **, size_t, size_t)

void *calloc(size_t many, size_t size)
{
    /* dlsym itself may ask for memory by calloc, so this one asks malloc's way. */
    static char first[4096];
    static void *(*real)(size_t, size_t);
    static int is_looking;
    if (!real && is_looking)
        return first;
    if (!real) {
        is_looking = 1;
        real = (void *(*)(size_t, size_t))dlsym(RTLD_NEXT, "calloc");
    }
    return is_refused() ? NULL : real(many, size);
}

/* Devices. */

__attribute__((format(printf, 1, 2))) static void note(const char *form, ...)
{
    va_list what;
    va_start(what, form);
    if (record_fd >= 0)
        vdprintf(record_fd, form, what);
    va_end(what);
}

/* A call for input, files, sockets or the clock. */
static void begins_work(void)
{
    if (ends_once_taken)
        _exit(0);
}

/* One call more of a device; where it fails, so much of so much is done all the same. */
static int fails(int kind, size_t size, size_t *done)
{
    struct device *device = &devices[kind];
    *done = 0;
    if (kind == NONE || !device->due || ++device->calls < device->due)
        return 0;
    if (!device->is_over)
        *done = size * device->halves / 2;
    device->is_over = 1;
    note("failed %d\n", kind);
    errno = device->error;
    return 1;
}

static size_t at_once(int kind, size_t size)
{
    long most = kind == NONE ? -1 : devices[kind].at_once;
    return most >= 0 && (size_t)most < size ? (size_t)most : size;
}

static int device_of(int fd)
{
    return fd >= 0 && fd < MOST ? open_ones[fd].device : NONE;
}

static void set(int fd, int device, const char *path)
{
    if (fd < 0 || fd >= MOST)
        return;
    open_ones[fd].device = device;
    open_ones[fd].place = open_ones[fd].is_full = 0;
    snprintf(open_ones[fd].path, sizeof open_ones[fd].path, "%s", path);
}

/* Files. */

static ssize_t put(int fd, const void *bytes, size_t size)
{
    REAL(ssize_t, write, int, const void *, size_t);
    ssize_t done = real(fd, bytes, size);
    int kind = device_of(fd);
    if (done < 0)
        return done;
    if (kind == ANSWERS || kind == FAULTS)
        note("%s %zd\n", kind == ANSWERS ? "say" : "tell", done);
    else if (kind == SOCKETS)
        note("sent %d %zd\n", open_ones[fd].place, done);
    else if (kind != NONE && done)
        note("append %s %zd\n", open_ones[fd].path, done);
    return done;
}

/* In a script a connection that took less than it was given takes nothing until it is said to. */
static int is_waited_for(int fd)
{
    if (script_fd < 0 || !open_ones[fd].is_full)
        return 0;
    errno = EAGAIN;
    return 1;
}

ssize_t write(int fd, const void *bytes, size_t size)
{
    int kind = device_of(fd);
    size_t done, most = at_once(kind, size);
    if (kind == ANSWERS)
        begins_work();
    if (kind == SOCKETS && is_waited_for(fd))
        return -1;
    if (fails(kind, size, &done)) {
        int error = errno;
        if (done)
            put(fd, bytes, done);
        errno = error;
        return -1;
    }
    if (kind == SOCKETS)
        open_ones[fd].is_full = most < size;
    return most || !size ? put(fd, bytes, most) : 0;
}

ssize_t send(int fd, const void *bytes, size_t size, int flags)
{
    REAL(ssize_t, send, int, const void *, size_t, int);
    return device_of(fd) == SOCKETS ? write(fd, bytes, size) : real(fd, bytes, size, flags);
}

ssize_t read(int fd, void *bytes, size_t size)
{
    REAL(ssize_t, read, int, void *, size_t);
    begins_work();
    int kind = device_of(fd);
    size_t done;
    if (fails(kind, 0, &done))
        return -1;
    if (kind == INPUT)
        note("take\n");
    return real(fd, bytes, at_once(kind, size));
}

ssize_t recv(int fd, void *bytes, size_t size, int flags)
{
    REAL(ssize_t, recv, int, void *, size_t, int);
    return device_of(fd) == SOCKETS && !flags ? read(fd, bytes, size) : real(fd, bytes, size, flags);
}

static int is_at(const char *path, const char *other)
{
    return path && other && strcmp(path, other) == 0;
}

/* A file that was opened: which device it is, and what is written down of it. */
static int opened(int fd, const char *path, int flags, int was_there)
{
    struct stat found;
    int writes = flags & O_ACCMODE;
    if (fd < 0 || fstat(fd, &found) < 0 || !S_ISREG(found.st_mode) || strncmp(path, "/proc/", 6) == 0)
        return fd;
    set(fd, writes ? FILES : READING, path);
    if (!writes)
        note("open %s\n", path);
    else if (flags & O_CREAT)
        note("%s %s\n", was_there ? "write" : "make", path);
    if (flags & O_TRUNC)
        note("cut %s 0\n", path);
    return fd;
}

int openat(int folder, const char *path, int flags, ...)
{
    begins_work();
    REAL(int, openat, int, const char *, int, ...);
    int writes = flags & O_ACCMODE, was_there = access(path, F_OK) == 0, fd;
    size_t done;
    va_list rest;
    va_start(rest, flags);
    mode_t mode = flags & O_CREAT ? va_arg(rest, mode_t) : 0;
    va_end(rest);
    if (writes && (is_at(path, sealed) || (flags & O_CREAT && devices[FILES].is_over))) {
        errno = is_at(path, sealed) ? EACCES : devices[FILES].error;
        return -1;
    }
    if (flags & O_TRUNC && fails(FILES, 1, &done)) {
        if (done && (fd = real(folder, path, flags, mode)) >= 0)
            close(fd);
        errno = devices[FILES].error;
        return -1;
    }
    return opened(real(folder, path, flags, mode), path, flags, was_there);
}

int open(const char *path, int flags, ...)
{
    va_list rest;
    va_start(rest, flags);
    mode_t mode = flags & O_CREAT ? va_arg(rest, mode_t) : 0;
    va_end(rest);
    return openat(AT_FDCWD, path, flags, mode);
}

int close(int fd)
{
    REAL(int, close, int);
    set(fd, NONE, "");
    return real(fd);
}

/* A call that changes a file as a whole or not at all. */
#define CHANGES(done_by, ...) \
    size_t done; \
    if (fails(FILES, 1, &done)) { \
        if (done && (done_by) == 0) \
            note(__VA_ARGS__); \
        errno = devices[FILES].error; \
        return -1; \
    } \
    int status = (done_by); \
    if (status == 0) \
        note(__VA_ARGS__); \
    return status

int ftruncate(int fd, off_t size)
{
    REAL(int, ftruncate, int, off_t);
    CHANGES(real(fd, size), "cut %s %lld\n", open_ones[fd].path, (long long)size);
}

int rename(const char *from, const char *to)
{
    REAL(int, rename, const char *, const char *);
    CHANGES(real(from, to), "put %s %s\n", from, to);
}

static int synced(int fd, int (*real)(int))
{
    size_t done;
    if (fails(FILES, 0, &done))
        return -1;
    int status = real(fd);
    if (status == 0)
        note("sync %s\n", open_ones[fd].path);
    return status;
}

#define SYNCS(name) \
    int name(int fd) \
    { \
        REAL(int, name, int); \
        return synced(fd, real); \
    }

SYNCS(fsync)
SYNCS(fdatasync)

int unlink(const char *path)
{
    REAL(int, unlink, const char *);
    int status = real(path);
    if (status == 0)
        note("remove %s\n", path);
    return status;
}

int flock(int fd, int how)
{
    REAL(int, flock, int, int);
    if (is_at(open_ones[fd].path, locked)) {
        errno = EWOULDBLOCK;
        return -1;
    }
    int status = real(fd, how);
    if (status == 0)
        note("lock %s\n", open_ones[fd].path);
    return status;
}

int statx(int folder, const char *path, int flags, unsigned mask, struct statx *found)
{
    REAL(int, statx, int, const char *, int, unsigned, struct statx *);
    begins_work();
    int status = real(folder, path, flags, mask, found);
    if (flags & AT_SYMLINK_NOFOLLOW && is_at(path, fixed)) {
        found->stx_mode = S_IFIFO | 0644;
        return 0;
    }
    return status;
}

/* The clock. */

int clock_gettime(clockid_t clock, struct timespec *time)
{
    REAL(int, clock_gettime, clockid_t, struct timespec *);
    begins_work();
    if (step < 0 || clock == CLOCK_REALTIME)
        return real(clock, time);
    now += step;
    time->tv_sec = now / 1000;
    time->tv_nsec = now % 1000 * 1000000;
    return 0;
}

int nanosleep(const struct timespec *length, struct timespec *rest)
{
    REAL(int, nanosleep, const struct timespec *, struct timespec *);
    if (step < 0)
        return real(length, rest);
    now += length->tv_sec * 1000 + length->tv_nsec / 1000000;
    return 0;
}

/* Sockets. */

int getaddrinfo(const char *name, const char *service, const struct addrinfo *hints, struct addrinfo **found)
{
    REAL(int, getaddrinfo, const char *, const char *, const struct addrinfo *, struct addrinfo **);
    begins_work();
    return real(name, service, hints, found);
}

int socket(int domain, int type, int protocol)
{
    REAL(int, socket, int, int, int);
    begins_work();
    int fd = real(domain, type, protocol);
    set(fd, SOCKETS, "");
    return fd;
}

int listen(int fd, int most)
{
    REAL(int, listen, int, int);
    size_t done;
    return fails(SOCKETS, 0, &done) ? -1 : real(fd, most);
}

int connect(int fd, const struct sockaddr *address, socklen_t length)
{
    REAL(int, connect, int, const struct sockaddr *, socklen_t);
    size_t done;
    return fails(SOCKETS, 0, &done) ? -1 : real(fd, address, length);
}

int accept4(int fd, struct sockaddr *address, socklen_t *length, int flags)
{
    REAL(int, accept4, int, struct sockaddr *, socklen_t *, int);
    size_t done;
    if (fails(SOCKETS, 0, &done))
        return -1;
    int found = real(fd, address, length, flags);
    set(found, SOCKETS, "");
    if (found >= 0 && found < MOST)
        open_ones[found].place = places++;
    return found;
}

int epoll_ctl(int poll, int what, int fd, struct epoll_event *event)
{
    REAL(int, epoll_ctl, int, int, int, struct epoll_event *);
    if (event && fd >= 0 && fd < MOST)
        open_ones[fd].event = event->data.u64;
    return real(poll, what, fd, event);
}

/* The connections that wait to take bytes take some again. */
static int make_room(struct epoll_event *events, int most)
{
    int count = 0;
    for (int fd = 0; fd < MOST && count < most; fd++)
        if (open_ones[fd].device == SOCKETS && open_ones[fd].is_full) {
            open_ones[fd].is_full = 0;
            events[count].events = EPOLLOUT;
            events[count++].data.u64 = open_ones[fd].event;
        }
    note("room\n");
    return count;
}

int epoll_wait(int poll, struct epoll_event *events, int most, int wait)
{
    REAL(int, epoll_wait, int, struct epoll_event *, int, int);
    char said[32] = "";
    int count = real(poll, events, most, script_fd < 0 ? wait : 0);
    if (script_fd < 0 || count != 0 || wait == 0)
        return count;
    if (write(script_fd, "?", 1) != 1 || read(script_fd, said, sizeof said - 1) < 1)
        said[0] = 'f';
    if (said[0] == 'g')
        return real(poll, events, most, 2000);
    if (said[0] == 'r')
        return make_room(events, most);
    now = said[0] == 't' ? atol(said + 1) * 1000 : now;
    errno = EIO;
    return said[0] == 't' ? 0 : -1;
}
