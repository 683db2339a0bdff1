// Streams and files of the process that it is loaded into fail, as the environment says:
// READ_STEP: a read gives at most so many bytes, behind one that is interrupted.
// READ_ROOM, WRITE_ROOM: standard input gives, and standard output takes, so many bytes in all, and then fails.
// FILE_ROOM: files take so many bytes in all at places, and then fail. UNREADABLE: a read at this place of a file fails.
// FAIL, FAIL_AT: the call of this name fails that is the one of this number, counted from 1; with FAIL_ALL each from there on. It does
// nothing then, or what FAIL_HOW says: `whole` does all and then fails, `half` does half and fails, `short` does half and says so; `kill` has
// the process killed in front of the call, and `killed` behind it. FAIL_MARK is the name of a file that is made where a call failed.
#define _GNU_SOURCE
#include <dlfcn.h>
#include <errno.h>
#include <fcntl.h>
#include <signal.h>
#include <stdarg.h>
#include <stdint.h>
#include <stdlib.h>
#include <string.h>
#include <sys/file.h>
#include <sys/stat.h>
#include <unistd.h>

static size_t read_step, read_room, write_room, file_room, unreadable;
static int was_interrupted;
static const char *fail_name, *fail_how, *fail_mark;
static size_t fail_at, fail_count;
static int fail_all;

static size_t number(const char *name) {
    const char *said = getenv(name);
    return said ? strtoul(said, NULL, 10) : SIZE_MAX;
}

__attribute__((constructor)) static void start(void) {
    read_step = number("READ_STEP");
    read_room = number("READ_ROOM");
    write_room = number("WRITE_ROOM");
    file_room = number("FILE_ROOM");
    unreadable = number("UNREADABLE");
    fail_name = getenv("FAIL");
    fail_how = getenv("FAIL_HOW");
    fail_mark = getenv("FAIL_MARK");
    fail_at = number("FAIL_AT");
    fail_all = getenv("FAIL_ALL") != NULL;
}

static ssize_t fail(int error) {
    errno = error;
    return -1;
}

static int is_how(const char *how) { return fail_how != NULL && strcmp(fail_how, how) == 0; }

// Whether this call of a name is one that fails.
static int fails(const char *name) {
    if (fail_name == NULL || strcmp(name, fail_name) != 0) return 0;
    fail_count++;
    if (fail_count < fail_at || (fail_count > fail_at && !fail_all)) return 0;
    if (fail_mark != NULL) close(creat(fail_mark, 0600));
    if (is_how("kill")) kill(getpid(), SIGKILL);
    return 1;
}

// Behind a call that was done and fails.
static int killed_or_failed(void) {
    if (is_how("killed")) kill(getpid(), SIGKILL);
    return fail(EIO);
}

static size_t least(size_t one, size_t other) { return one < other ? one : other; }

ssize_t read(int file, void *bytes, size_t count) {
    ssize_t (*real)(int, void *, size_t) = dlsym(RTLD_NEXT, "read");
    if (file != 0 || count == 0) return real(file, bytes, count);
    was_interrupted = read_step != SIZE_MAX && !was_interrupted;
    if (was_interrupted) return fail(EINTR);
    if (read_room == 0) return fail(EIO);
    ssize_t done = real(file, bytes, least(count, least(read_step, read_room)));
    if (done > 0 && read_room != SIZE_MAX) read_room -= done;
    return done;
}

ssize_t write(int file, const void *bytes, size_t count) {
    ssize_t (*real)(int, const void *, size_t) = dlsym(RTLD_NEXT, "write");
    if (file != 1 || count == 0) return real(file, bytes, count);
    if (write_room == 0) return fail(ENOSPC);
    ssize_t done = real(file, bytes, least(count, write_room));
    if (done > 0 && write_room != SIZE_MAX) write_room -= done;
    return done;
}

ssize_t pread(int file, void *bytes, size_t count, off_t place) {
    ssize_t (*real)(int, void *, size_t, off_t) = dlsym(RTLD_NEXT, "pread");
    if (place == (off_t)unreadable) return fail(EIO);
    if (!fails("pread")) return real(file, bytes, count, place);
    return is_how("short") && count > 1 ? real(file, bytes, count / 2, place) : fail(EIO);
}

ssize_t pwrite(int file, const void *bytes, size_t count, off_t place) {
    ssize_t (*real)(int, const void *, size_t, off_t) = dlsym(RTLD_NEXT, "pwrite");
    if (count == 0) return real(file, bytes, count, place);
    if (fails("pwrite")) {
        if (is_how("short") && count > 1) return real(file, bytes, count / 2, place);
        if (is_how("whole") || is_how("killed")) real(file, bytes, count, place);
        if (is_how("half")) real(file, bytes, count / 2, place);
        return is_how("interrupted") ? fail(EINTR) : killed_or_failed();
    }
    if (file_room == 0) return fail(ENOSPC);
    ssize_t done = real(file, bytes, least(count, file_room), place);
    if (done > 0 && file_room != SIZE_MAX) file_room -= done;
    return done;
}

// A function that gives -1 where it fails.
#define MAY_FAIL(name, parameters, arguments)                    \
    int name parameters {                                        \
        int(*real) parameters = dlsym(RTLD_NEXT, #name);         \
        if (!fails(#name)) return real arguments;                \
        if (is_how("whole") || is_how("killed")) real arguments; \
        return killed_or_failed();                               \
    }

MAY_FAIL(statx, (int folder, const char *restrict path, int flags, unsigned mask, struct statx *restrict told),
         (folder, path, flags, mask, told))
MAY_FAIL(fsync, (int file), (file))
MAY_FAIL(fdatasync, (int file), (file))
MAY_FAIL(ftruncate, (int file, off_t length), (file, length))
MAY_FAIL(flock, (int file, int how), (file, how))
MAY_FAIL(rename, (const char *from, const char *to), (from, to))
MAY_FAIL(link, (const char *from, const char *to), (from, to))
MAY_FAIL(unlink, (const char *path), (path))
MAY_FAIL(fchmod, (int file, mode_t mode), (file, mode))
MAY_FAIL(getentropy, (void *bytes, size_t count), (bytes, count))

int open(const char *path, int flags, ...) {
    int (*real)(const char *, int, ...) = dlsym(RTLD_NEXT, "open");
    va_list more;
    va_start(more, flags);
    mode_t mode = flags & O_CREAT ? va_arg(more, mode_t) : 0;
    va_end(more);
    return fails("open") ? fail(EIO) : real(path, flags, mode);
}

char *realpath(const char *restrict path, char *restrict whole) {
    char *(*real)(const char *, char *) = dlsym(RTLD_NEXT, "realpath");
    if (!fails("realpath")) return real(path, whole);
    errno = EIO;
    return NULL;
}
