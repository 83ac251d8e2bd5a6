"""A library that is loaded before the C library, and refuses a program what it asks for: an allocation, or reads or writes
of one of its files and streams. It is compiled by `cc`, and told what to refuse by variables of the environment:

  REFUSED       the number of the allocation that is refused, from 1 on
  REFUSED_OVER  bytes: each allocation of more is refused
  COUNTED       a file of 8 bytes, in which allocations are counted as they come: not every program ends in a way that runs
                a destructor
  DEVICE        input, output, error or the name of a file, without its folder: each read and each write of it moves one
                byte
  ROOM          bytes that the device moves. A read or write after them is refused: by a fault, or by 0 bytes where
                TAKES_NONE is set too. One more read or write of that device, also of no bytes, ends the program by a
                signal: what failed is left alone
  DEVICE_2, ROOM_2
                the same of one more device
  PIECE         bytes that a read or write of a device moves at most, in place of one
"""
import shutil
import subprocess

SOURCE = r"""
#define _GNU_SOURCE
#include <dlfcn.h>
#include <errno.h>
#include <fcntl.h>
#include <stdint.h>
#include <stdio.h>
#include <stdlib.h>
#include <string.h>
#include <sys/mman.h>
#include <unistd.h>

static void *(*real_malloc)(size_t);
static void *(*real_realloc)(void *, size_t);
static int (*real_posix_memalign)(void **, size_t, size_t);
static void *(*real_aligned_alloc)(size_t, size_t);
static ssize_t (*real_read)(int, void *, size_t);
static ssize_t (*real_write)(int, const void *, size_t);
static long here, *so_far = &here, refused = -1;
static size_t refused_over = SIZE_MAX, piece = 1;
static int counts, takes_none;
static struct device { const char *name; size_t room, moved; int has_refused; } devices[2];

static void find(void) {
    real_malloc = dlsym(RTLD_NEXT, "malloc");
    real_realloc = dlsym(RTLD_NEXT, "realloc");
    real_posix_memalign = dlsym(RTLD_NEXT, "posix_memalign");
    real_aligned_alloc = dlsym(RTLD_NEXT, "aligned_alloc");
    real_read = dlsym(RTLD_NEXT, "read");
    real_write = dlsym(RTLD_NEXT, "write");
}

static long number(const char *variable, long without) {
    const char *text = getenv(variable);
    return text ? atol(text) : without;
}

__attribute__((constructor)) static void begin(void) {
    const char *name = getenv("COUNTED");
    find();
    devices[0] = (struct device){getenv("DEVICE"), number("ROOM", -1), 0, 0};
    devices[1] = (struct device){getenv("DEVICE_2"), number("ROOM_2", -1), 0, 0};
    piece = number("PIECE", 1);
    takes_none = getenv("TAKES_NONE") != 0;
    refused = number("REFUSED", -1);
    refused_over = number("REFUSED_OVER", -1);
    if (name) {
        void *counter = mmap(0, sizeof(long), PROT_READ | PROT_WRITE, MAP_SHARED, open(name, O_RDWR), 0);
        if (counter != MAP_FAILED) so_far = counter;
    }
    counts = 1;
}

static int is_refused(size_t size) {
    if (!real_malloc) find();
    return counts && (__atomic_add_fetch(so_far, 1, __ATOMIC_SEQ_CST) == refused || size > refused_over);
}

void *malloc(size_t size) {
    if (is_refused(size)) { errno = ENOMEM; return 0; }
    return real_malloc(size);
}

void *realloc(void *old, size_t size) {
    if (is_refused(size)) { errno = ENOMEM; return 0; }
    return real_realloc(old, size);
}

int posix_memalign(void **found, size_t align, size_t size) {
    return is_refused(size) ? ENOMEM : real_posix_memalign(found, align, size);
}

void *aligned_alloc(size_t align, size_t size) {
    if (is_refused(size)) { errno = ENOMEM; return 0; }
    return real_aligned_alloc(align, size);
}

static struct device *device_of(int fd) {
    static const char *const streams[] = {"input", "output", "error"};
    char link[40], path[4096];
    const char *name = path;
    if (!devices[0].name || fd < 0) return 0;
    if (fd < 3) {
        name = streams[fd];
    } else {
        snprintf(link, sizeof link, "/proc/self/fd/%d", fd);
        ssize_t length = readlink(link, path, sizeof path - 1);
        path[length < 0 ? 0 : length] = 0;
        if (!(name = strrchr(path, '/'))) return 0;
        name++;
    }
    for (int at = 0; at < 2; at++)
        if (devices[at].name && !strcmp(devices[at].name, name)) return &devices[at];
    return 0;
}

/* Only one thread of a program reads or writes. */
static ssize_t refuse(struct device *device, int reason, ssize_t answer) {
    if (device->has_refused) abort();
    device->has_refused = 1;
    errno = reason;
    return answer;
}

/* Of no bytes a read or write is refused only behind one that was. */
static int is_over(const struct device *device, size_t count) {
    return device->moved == device->room && (count || device->has_refused);
}

/* How many of so many bytes a read or write moves. */
static size_t part(const struct device *device, size_t count) {
    size_t left = device->room - device->moved, most = left < piece ? left : piece;
    return count < most ? count : most;
}

static ssize_t counted(struct device *device, ssize_t bytes) {
    if (bytes > 0) device->moved += bytes;
    return bytes;
}

ssize_t read(int fd, void *to, size_t count) {
    struct device *device = device_of(fd);
    if (!device) return real_read(fd, to, count);
    if (is_over(device, count)) return refuse(device, EIO, -1);
    return counted(device, real_read(fd, to, part(device, count)));
}

ssize_t write(int fd, const void *from, size_t count) {
    struct device *device = device_of(fd);
    if (!device) return real_write(fd, from, count);
    if (is_over(device, count)) return refuse(device, ENOSPC, takes_none ? 0 : -1);
    return counted(device, real_write(fd, from, part(device, count)));
}

ssize_t __write(int fd, const void *from, size_t count) {
    return write(fd, from, count);
}
"""


def compiler():
    """The path of `cc`, None where it isn't there."""
    return shutil.which("cc")


def library(folder):
    """The path of the library, which is compiled into this folder."""
    path = f"{folder}/refusing.so"
    words = [compiler(), "-shared", "-fPIC", "-O1", "-x", "c", "-o", path, "-", "-ldl"]
    subprocess.run(words, input=SOURCE.encode(), check=True)
    return path
