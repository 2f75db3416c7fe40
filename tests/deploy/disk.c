/* Preloaded into all that writes to the folder STATE: keeps apart, in the folder IMAGE, what its disk has for sure, which is what a stop of the machine leaves.
   After a sync of a file the image has its bytes, under its number and the moment of its birth; after one of the folder, in `names`, its names with these. */
#define _GNU_SOURCE
#include <dirent.h>
#include <dlfcn.h>
#include <fcntl.h>
#include <limits.h>
#include <stdio.h>
#include <stdlib.h>
#include <string.h>
#include <sys/stat.h>
#include <unistd.h>

/* Tells the name of a file in the image, and whether it is a folder; -1 where nothing is known of it. */
static int key(int folder, const char *name, int flags, char *text, size_t size) {
    struct statx told;
    if (statx(folder, name, flags, STATX_INO | STATX_BTIME | STATX_TYPE, &told)) return -1;
    snprintf(text, size, "%llu-%lld.%09u", (unsigned long long)told.stx_ino, (long long)told.stx_btime.tv_sec, told.stx_btime.tv_nsec);
    return S_ISDIR(told.stx_mode);
}

/* A file of the image, which is put in its place when it is whole. */
static void put(const char *name, int from, const char *state) {
    char new[PATH_MAX], place[PATH_MAX], piece[65536], text[PATH_MAX];
    snprintf(place, sizeof place, "%s/%s", getenv("IMAGE"), name);
    snprintf(new, sizeof new, "%s/.%s.%d", getenv("IMAGE"), name, getpid());
    FILE *out = fopen(new, "w");
    if (!out) _exit(97);
    if (state) {
        DIR *folder = opendir(state);
        for (struct dirent *one; (one = readdir(folder));)
            if (key(dirfd(folder), one->d_name, AT_SYMLINK_NOFOLLOW, text, sizeof text) == 0) fprintf(out, "%s %s\n", text, one->d_name);
        closedir(folder);
    } else {
        ssize_t size;
        for (off_t at = 0; (size = pread(from, piece, sizeof piece, at)) > 0; at += size) fwrite(piece, 1, size, out);
    }
    if (fclose(out) || rename(new, place)) _exit(98);
}

static void note(int file) {
    char own[PATH_MAX], link[64], text[PATH_MAX];
    const char *state = getenv("STATE");
    snprintf(link, sizeof link, "/proc/self/fd/%d", file);
    ssize_t size = readlink(link, own, sizeof own - 1);
    if (!state || size < 0) return;
    own[size] = 0;
    if (strncmp(own, state, strlen(state))) return;
    int is_folder = key(file, "", AT_EMPTY_PATH, text, sizeof text);
    if (is_folder == 1) {
        put("names", -1, state);
    } else if (is_folder == 0) {
        /* It may be open for writing alone. */
        int again = open(link, O_RDONLY | O_CLOEXEC);
        if (again < 0) _exit(96);
        put(text, again, NULL);
        close(again);
    }
}

int fsync(int file) {
    int (*real)(int) = (int (*)(int))dlsym(RTLD_NEXT, "fsync"), told = real(file);
    if (told == 0) note(file);
    return told;
}

int fdatasync(int file) { return fsync(file); }
