/* Refuses one call of a program that is run with this library preloaded: the call number REFUSE_CALL, from 1, of the kind
   REFUSE_KIND. `alloc`: malloc and realloc have no memory. `io`: open, read, write, recv and send fail. `short`: a read,
   write, recv or send of several bytes moves one. `interrupt`: one of these is interrupted before it moved any. `nought`:
   a write or send moves none, and tells no error. `thread`: a thread is not made. Where REFUSE_OF is set, calls of that
   name alone are counted of those that move bytes. When the call comes, the file REFUSE_TOLD is made. */
#define _GNU_SOURCE
#include <dlfcn.h>
#include <errno.h>
#include <fcntl.h>
#include <pthread.h>
#include <stdarg.h>
#include <stdatomic.h>
#include <stdlib.h>
#include <string.h>
#include <sys/socket.h>
#include <sys/syscall.h>
#include <unistd.h>

extern void *__libc_malloc(size_t);
extern void *__libc_realloc(void *, size_t);

static ssize_t (*read_of)(int, void *, size_t);
static ssize_t (*write_of)(int, const void *, size_t);
static ssize_t (*recv_of)(int, void *, size_t, int);
static ssize_t (*send_of)(int, const void *, size_t, int);
static int (*open_of)(const char *, int, ...);
static int (*create_of)(pthread_t *, const pthread_attr_t *, void *(*)(void *), void *);

static const char *kind, *of, *told;
static atomic_long left;

__attribute__((constructor)) static void begin(void) {
    read_of = (ssize_t (*)(int, void *, size_t))dlsym(RTLD_NEXT, "read");
    write_of = (ssize_t (*)(int, const void *, size_t))dlsym(RTLD_NEXT, "write");
    recv_of = (ssize_t (*)(int, void *, size_t, int))dlsym(RTLD_NEXT, "recv");
    send_of = (ssize_t (*)(int, const void *, size_t, int))dlsym(RTLD_NEXT, "send");
    open_of = (int (*)(const char *, int, ...))dlsym(RTLD_NEXT, "open");
    create_of = (int (*)(pthread_t *, const pthread_attr_t *, void *(*)(void *), void *))dlsym(RTLD_NEXT, "pthread_create");
    told = getenv("REFUSE_TOLD");
    of = getenv("REFUSE_OF");
    left = atol(getenv("REFUSE_CALL"));
    kind = getenv("REFUSE_KIND");
}

/* Whether this call, which is of this kind, is the one. */
static int is_refused(const char *this) {
    if (!kind || strcmp(kind, this) != 0 || atomic_fetch_sub(&left, 1) != 1) return 0;
    int file = syscall(SYS_openat, AT_FDCWD, told, O_WRONLY | O_CREAT, 0600);
    if (file >= 0) syscall(SYS_close, file);
    return 1;
}

/* What a call that would move bytes comes to: it fails, or moves at most so many. */
static int moves(const char *name, int broken, size_t *size) {
    if (of && strcmp(of, name) != 0) return 0;
    if (is_refused("io")) return errno = broken, -1;
    if (is_refused("interrupt")) return errno = EINTR, -1;
    if (*size > 1 && is_refused("short")) *size = 1;
    return 0;
}

/* The same of a call that gives bytes away, which may move none. */
static int gives(const char *name, int broken, size_t *size) {
    if (*size > 0 && (!of || strcmp(of, name) == 0) && is_refused("nought")) *size = 0;
    return moves(name, broken, size);
}

void *malloc(size_t size) { return is_refused("alloc") ? (errno = ENOMEM, NULL) : __libc_malloc(size); }

void *realloc(void *old, size_t size) { return is_refused("alloc") ? (errno = ENOMEM, NULL) : __libc_realloc(old, size); }

ssize_t read(int file, void *to, size_t size) { return moves("read", EIO, &size) ? -1 : read_of(file, to, size); }

ssize_t write(int file, const void *from, size_t size) { return gives("write", ENOSPC, &size) ? -1 : write_of(file, from, size); }

ssize_t recv(int file, void *to, size_t size, int flags) { return moves("recv", ECONNRESET, &size) ? -1 : recv_of(file, to, size, flags); }

ssize_t send(int file, const void *from, size_t size, int flags) { return gives("send", EPIPE, &size) ? -1 : send_of(file, from, size, flags); }

int open(const char *path, int flags, ...) {
    va_list more;
    va_start(more, flags);
    int mode = flags & O_CREAT ? va_arg(more, int) : 0;
    va_end(more);
    return is_refused("io") ? (errno = EIO, -1) : open_of(path, flags, mode);
}

int pthread_create(pthread_t *thread, const pthread_attr_t *how, void *(*work)(void *), void *with) {
    return is_refused("thread") ? EAGAIN : create_of(thread, how, work, with);
}
