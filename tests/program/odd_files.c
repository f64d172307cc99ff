/* Changes what the system reports of an open file, so that a test sees what the program makes of it.
 *
 * Compiled as a shared library and preloaded. ODD_FILES is what each call of statx returns: `fails`, an error of the device;
 * `inode`, inode 1 for every file, and a new device for each; `device`, device 1 for every file, and a new inode for each. With
 * `sync` each fdatasync fails as if the quota of the disk were used up, and with `close` each close of a file that was stored, after it
 * was closed.
 */
#define _GNU_SOURCE
#include <dlfcn.h>
#include <errno.h>
#include <stdlib.h>
#include <string.h>
#include <sys/stat.h>

static int stored = -1;

int fdatasync(int file) {
    const char *how = getenv("ODD_FILES");
    if (how && !strcmp(how, "sync")) {
        errno = EDQUOT;
        return -1;
    }
    stored = file;
    return ((int (*)(int))dlsym(RTLD_NEXT, "fdatasync"))(file);
}

int close(int file) {
    const char *how = getenv("ODD_FILES");
    int status = ((int (*)(int))dlsym(RTLD_NEXT, "close"))(file);
    if (how && !strcmp(how, "close") && file == stored) {
        errno = EIO;
        return -1;
    }
    return status;
}

typedef int Statx(int, const char *, int, unsigned, struct statx *);

int statx(int folder, const char *name, int flags, unsigned mask, struct statx *it) {
    static unsigned calls;
    const char *how = getenv("ODD_FILES");
    if (how && !strcmp(how, "fails")) {
        errno = EIO;
        return -1;
    }
    int status = ((Statx *)dlsym(RTLD_NEXT, "statx"))(folder, name, flags, mask, it);
    if (status == 0 && how && (!strcmp(how, "inode") || !strcmp(how, "device"))) {
        int same_inode = !strcmp(how, "inode");
        it->stx_ino = same_inode ? 1 : ++calls;
        it->stx_dev_major = 0;
        it->stx_dev_minor = same_inode ? ++calls : 1;
    }
    return status;
}
