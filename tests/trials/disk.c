/* A disk under one file of a program that is run with this library preloaded. The file that the program reads is what the system has in its memory;
   beside it the library keeps an image of what the disk itself has, and that is what a crash of the machine leaves.

   DISK_FILE: the file. DISK_IMAGE: where the image stands; a sync that succeeds brings to it what was written since the one before. DISK_CALLS: where each
   write and sync of the file, and each write to the standard output, is told in a line.
   DISK_FAULT: what happens at the call DISK_CALL, from 1, of its kind. Of writes: `full`, `broken`, `interrupted` (no byte is written, and ENOSPC, EIO or
   EINTR told), `short` (one byte is), `denied` (all of it is, and EIO told), `torn` (DISK_BYTES bytes reach the file, and the process is ended). Of syncs:
   `unsynced` (it fails, and what was written since the last one will never reach the disk, though reads go on giving it), `lied` (the same, but it tells
   that it was done), `ended` (the process is ended before it), `gone` (it is ended after it). Of reads: `unread` (it fails). Of syncs of a folder: `folder`
   (it fails). At all syncs: `slow` (it takes DISK_BYTES milliseconds more). */
#define _GNU_SOURCE
#include <dlfcn.h>
#include <errno.h>
#include <fcntl.h>
#include <stdio.h>
#include <stdlib.h>
#include <string.h>
#include <sys/stat.h>
#include <unistd.h>

enum { MOST = 4096 };

static const char *file, *image, *calls, *fault;
static long at_call, at_bytes, writes, syncs, reads, folders;
static struct { off_t from, to; } dirty[MOST];
static int dirties;
static ssize_t (*pwrite_of)(int, const void *, size_t, off_t);
static ssize_t (*pread_of)(int, void *, size_t, off_t);
static ssize_t (*write_of)(int, const void *, size_t);
static int (*fsync_of)(int);

static long number(const char *name) { return getenv(name) ? atol(getenv(name)) : 0; }

__attribute__((constructor)) static void begin(void) {
    pwrite_of = (ssize_t (*)(int, const void *, size_t, off_t))dlsym(RTLD_NEXT, "pwrite");
    pread_of = (ssize_t (*)(int, void *, size_t, off_t))dlsym(RTLD_NEXT, "pread");
    write_of = (ssize_t (*)(int, const void *, size_t))dlsym(RTLD_NEXT, "write");
    fsync_of = (int (*)(int))dlsym(RTLD_NEXT, "fsync");
    file = getenv("DISK_FILE"), image = getenv("DISK_IMAGE"), calls = getenv("DISK_CALLS"), fault = getenv("DISK_FAULT");
    at_call = number("DISK_CALL"), at_bytes = number("DISK_BYTES");
}

/* Whether a descriptor is that of the file. */
static int is_file(int descriptor) {
    struct stat one, other;
    return file && fstat(descriptor, &one) == 0 && stat(file, &other) == 0 && one.st_dev == other.st_dev && one.st_ino == other.st_ino;
}

static int is_folder(int descriptor) {
    struct stat one;
    return fstat(descriptor, &one) == 0 && S_ISDIR(one.st_mode);
}

static void tell(const char *line) {
    int out = calls ? open(calls, O_WRONLY | O_CREAT | O_APPEND, 0600) : -1;
    if (out < 0) return;
    if (write_of(out, line, strlen(line)) < 0) _exit(99);
    close(out);
}

static int is(const char *kind, long call) { return fault && call == at_call && strcmp(fault, kind) == 0; }

static void note(off_t from, size_t size) {
    if (dirties == MOST) _exit(98);
    dirty[dirties].from = from, dirty[dirties++].to = from + size;
}

/* Brings what was written since the last sync to the image. */
static void keep(int descriptor) {
    int out = image ? open(image, O_WRONLY | O_CREAT, 0600) : -1;
    for (int i = 0; out >= 0 && i < dirties; i++) {
        size_t size = dirty[i].to - dirty[i].from;
        char *bytes = malloc(size ? size : 1);
        ssize_t count = bytes ? pread_of(descriptor, bytes, size, dirty[i].from) : -1;
        if (count < 0 || pwrite_of(out, bytes, count, dirty[i].from) != count) _exit(97);
        free(bytes);
    }
    if (out >= 0) close(out);
    dirties = 0;
}

ssize_t pwrite(int descriptor, const void *bytes, size_t size, off_t at) {
    if (!is_file(descriptor)) return pwrite_of(descriptor, bytes, size, at);
    char line[96];
    snprintf(line, sizeof line, "write %lld %zu\n", (long long)at, size);
    tell(line);
    writes++;
    if (is("full", writes)) return errno = ENOSPC, -1;
    if (is("broken", writes)) return errno = EIO, -1;
    if (is("interrupted", writes)) return errno = EINTR, -1;
    if (is("short", writes) && size > 1) size = 1;
    if (is("torn", writes)) {
        if (pwrite_of(descriptor, bytes, (size_t)at_bytes < size ? (size_t)at_bytes : size, at) < 0) _exit(96);
        _exit(77);
    }
    ssize_t count = pwrite_of(descriptor, bytes, size, at);
    if (count > 0) note(at, count);
    if (is("denied", writes)) return errno = EIO, -1;
    return count;
}

ssize_t pwrite64(int descriptor, const void *bytes, size_t size, off_t at) { return pwrite(descriptor, bytes, size, at); }

ssize_t pread(int descriptor, void *bytes, size_t size, off_t at) {
    if (is_file(descriptor) && is("unread", ++reads)) return errno = EIO, -1;
    return pread_of(descriptor, bytes, size, at);
}

ssize_t pread64(int descriptor, void *bytes, size_t size, off_t at) { return pread(descriptor, bytes, size, at); }

ssize_t write(int descriptor, const void *bytes, size_t size) {
    if (descriptor == 1) tell("put\n");
    return write_of(descriptor, bytes, size);
}

int fsync(int descriptor) {
    if (is_folder(descriptor) && is("folder", ++folders)) return errno = EIO, -1;
    if (!is_file(descriptor)) return fsync_of(descriptor);
    tell("sync\n");
    syncs++;
    if (fault && strcmp(fault, "slow") == 0) usleep(at_bytes * 1000);
    if (is("ended", syncs)) _exit(77);
    if (is("unsynced", syncs)) return dirties = 0, errno = EIO, -1;
    if (is("lied", syncs)) return dirties = 0;
    keep(descriptor);
    if (is("gone", syncs)) _exit(77);
    return 0;
}

int fdatasync(int descriptor) { return fsync(descriptor); }
