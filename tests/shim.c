/*
 * A library for LD_PRELOAD that stands between a program and one file, the drive. It cuts power at a write or a flush, makes
 * calls fail, makes sectors unreadable, fixes the time, and writes a log. Every other file is left alone. Linux, 64 bits.
 *
 *     cc -O2 -Wall -shared -fPIC -o target/shim.so tests/shim.c
 *     SHIM_IMAGE=pool.img SHIM_CUT=2 LD_PRELOAD=target/shim.so target/amseokbin mend pool.img     # status 99: power is gone
 *
 * Settings are environment variables. A sector is 512 bytes; calls and events are counted from 1.
 *
 * SHIM_IMAGE=PATH       The drive: any descriptor of that file, by its device and inode. Without it nothing is done but
 *                       SHIM_TIME, `out` and `err` below.
 * SHIM_LOG=PATH         Adds a line for each call on the drive: kind, number, sector, bytes asked for, result (a number or
 *                       the error: EIO, ENOSPC, EINTR, or E and a number). A dash where there is none. `cut` and the event's
 *                       number for a cut.
 * SHIM_TIME=S.N         The clock stands at S seconds and N nanoseconds.
 * SHIM_UNREADABLE=LIST  Reads that touch one of these sectors fail with EIO: 8-11,1030. A sector that the process has written
 *                       can be read again, as on a drive that gives it another place.
 * SHIM_FAIL=LIST        KIND:NUMBER:HOW, or KIND:NUMBER:HOW:on for that call and all later ones of its kind; several with
 *                       commas. KIND: open, read (and pread), write (and pwrite), flush (fsync and fdatasync), all of the
 *                       drive; out, a write to standard output; err, one to standard error. HOW: EIO, ENOSPC, EINTR; short, half
 *                       the bytes asked for.
 * SHIM_FORGET=yes       Also logs `forget` each time that the system is told to let go of what it keeps of the drive in memory.
 * SHIM_CUT=NUMBER       Power goes in that write or flush of the drive, writes and flushes counted together. The process
 *                       ends with status 99. Writes are held in memory until the next flush; reads see them. The write in
 *                       which power goes is among those held. If the process ends before, power goes at its end, and the
 *                       status is its own.
 * SHIM_KEEP=all         Every held sector reaches the drive; so it is without SHIM_KEEP.
 * SHIM_KEEP=none        No held sector does.
 * SHIM_KEEP=SEED        Each does or does not, by the seed's bits.
 * SHIM_WILD=WHICH:HOW   One held sector ends up otherwise: the WHICH-th from 0 in the order of their first writes, or `last`.
 *                       HOW: torn, its first half new and its second half old; late, its first half old and its second half
 *                       new; a number, bytes from that seed; a path with a slash, the first 512 bytes of that file.
 *
 * A flush is not passed on to the kernel: a process that was cut leaves in the file what the drive would hold. Only calls that
 * the program makes itself are seen, not those that stdio makes within the C library.
 */
#define _GNU_SOURCE
#include <errno.h>
#include <fcntl.h>
#include <stdarg.h>
#include <stdint.h>
#include <stdio.h>
#include <stdlib.h>
#include <string.h>
#include <sys/stat.h>
#include <sys/syscall.h>
#include <sys/types.h>
#include <time.h>
#include <unistd.h>

enum { SECTOR = 512, CUT_STATUS = 99, OWN_DESCRIPTORS = 200 };
enum kind { OPEN, READ, WRITE, FLUSH, OUT, ERR, KINDS };
static const char *const kind_names[KINDS] = {"open", "read", "write", "flush", "out", "err"};

/* The calls themselves. */
static ssize_t real_pread(int fd, void *to, size_t n, off_t at) { return syscall(SYS_pread64, fd, to, n, at); }
static ssize_t real_pwrite(int fd, const void *from, size_t n, off_t at) { return syscall(SYS_pwrite64, fd, from, n, at); }
static ssize_t real_write(int fd, const void *from, size_t n) { return syscall(SYS_write, fd, from, n); }
static int real_open(int folder, const char *path, int flags, mode_t mode) {
    return (int)syscall(SYS_openat, folder, path, flags, mode);
}

static void stop(const char *what, const char *value) {
    char line[256];
    int n = snprintf(line, sizeof line, "shim: %s: %s\n", what, value);
    real_write(2, line, (size_t)n);
    _exit(98);
}

/* ---- the drive, the counts and the log ---- */

static unsigned long counts[KINDS]; /* calls so far */
static unsigned long events;        /* writes and flushes of the drive so far */

static int same_file(const struct stat *x) {
    const char *path = getenv("SHIM_IMAGE");
    struct stat drive;
    return path && stat(path, &drive) == 0 && drive.st_dev == x->st_dev && drive.st_ino == x->st_ino;
}

static int is_drive(int fd) {
    int before = errno;
    struct stat x;
    int yes = getenv("SHIM_IMAGE") && fstat(fd, &x) == 0 && same_file(&x);
    errno = before;
    return yes;
}

/* Whether a path is the drive's; also where the file is not there yet. */
static int is_drive_path(int folder, const char *path) {
    int before = errno;
    const char *image = getenv("SHIM_IMAGE");
    struct stat x;
    int yes = image && (strcmp(path, image) == 0 || (fstatat(folder, path, &x, 0) == 0 && same_file(&x)));
    errno = before;
    return yes;
}

/* Moves a descriptor to a high number, so that the program's own are as without the shim. */
static int high(int low) {
    int fd = fcntl(low, F_DUPFD_CLOEXEC, OWN_DESCRIPTORS);
    syscall(SYS_close, low);
    return fd;
}

static void log_line(const char *form, ...) {
    static int fd = -1;
    const char *path = getenv("SHIM_LOG");
    if (!path) return;
    int before = errno;
    if (fd < 0) {
        int low = real_open(AT_FDCWD, path, O_WRONLY | O_CREAT | O_APPEND, 0666);
        if (low < 0) stop("the log cannot be opened", path);
        fd = high(low);
    }
    char line[256];
    va_list rest;
    va_start(rest, form);
    int n = vsnprintf(line, sizeof line, form, rest);
    va_end(rest);
    real_write(fd, line, (size_t)n);
    errno = before;
}

static const char *error_name(int error) { return error == EIO ? "EIO" : error == ENOSPC ? "ENOSPC" : "EINTR"; }

static void log_call(enum kind kind, off_t at, size_t n, ssize_t result) {
    char sector[40] = "-", bytes[40] = "-", answer[40];
    if (at >= 0 && at % SECTOR == 0) snprintf(sector, sizeof sector, "%lld", (long long)(at / SECTOR));
    if (at >= 0 && at % SECTOR != 0) snprintf(sector, sizeof sector, "%lld+%d", (long long)(at / SECTOR), (int)(at % SECTOR));
    if (kind != OPEN && kind != FLUSH) snprintf(bytes, sizeof bytes, "%zu", n);
    if (result >= 0) snprintf(answer, sizeof answer, "%zd", result);
    else if (errno == EIO || errno == ENOSPC || errno == EINTR) snprintf(answer, sizeof answer, "%s", error_name(errno));
    else snprintf(answer, sizeof answer, "E%d", errno);
    log_line("%s %lu %s %s %s\n", kind_names[kind], counts[kind], sector, bytes, answer);
}

/* ---- faults ---- */

static int error_number(const char *name) {
    if (strcmp(name, "EIO") == 0) return EIO;
    if (strcmp(name, "ENOSPC") == 0) return ENOSPC;
    if (strcmp(name, "EINTR") == 0) return EINTR;
    if (strcmp(name, "short") == 0) return 0;
    stop("not a way to fail", name);
    return 0;
}

/* Counts a call. -1 with errno where it has to fail; otherwise how many of the n bytes it may take. */
static ssize_t admitted(enum kind kind, size_t n) {
    unsigned long number = ++counts[kind];
    const char *list = getenv("SHIM_FAIL");
    while (list && *list) {
        char name[16], how[16], on[8] = "";
        unsigned long at;
        if (sscanf(list, "%15[a-z]:%lu:%15[A-Za-z]:%7[a-z]", name, &at, how, on) < 3) stop("SHIM_FAIL", list);
        if (strcmp(name, kind_names[kind]) == 0 && (number == at || (number > at && strcmp(on, "on") == 0))) {
            int error = error_number(how);
            if (error) {
                errno = error;
                return -1;
            }
            return n > 1 ? (ssize_t)(n / 2) : (ssize_t)n;
        }
        list = strchr(list, ',');
        if (list) list++;
    }
    return (ssize_t)n;
}

static long long *written; /* sectors that the process has written */
static size_t written_count;

static void note_written(off_t at, size_t n) {
    if (!getenv("SHIM_UNREADABLE")) return;
    for (long long sector = at / SECTOR; sector * SECTOR < at + (off_t)n; sector++) {
        written = realloc(written, (written_count + 1) * sizeof *written);
        if (!written) stop("memory", "none left");
        written[written_count++] = sector;
    }
}

static int is_unreadable(long long sector) {
    for (size_t i = 0; i < written_count; i++)
        if (written[i] == sector) return 0;
    const char *list = getenv("SHIM_UNREADABLE");
    while (list && *list) {
        char *end;
        long long low = strtoll(list, &end, 10), high = low;
        if (end == list) stop("SHIM_UNREADABLE", list);
        if (*end == '-') high = strtoll(end + 1, &end, 10);
        if (low <= sector && sector <= high) return 1;
        list = *end == ',' ? end + 1 : NULL;
    }
    return 0;
}

static int touches_unreadable(off_t at, size_t n) {
    for (long long sector = at / SECTOR; sector * SECTOR < at + (off_t)n; sector++)
        if (is_unreadable(sector)) return 1;
    return 0;
}

/* ---- held sectors, and the cut ---- */

struct held {
    long long sector;
    unsigned char bytes[SECTOR];
};
static struct held *held;
static size_t held_count;

static int cutting(void) { return getenv("SHIM_CUT") != NULL; }

/* The shim's own descriptor of the drive: the program may have closed its own when power goes. */
static int drive(void) {
    static int fd = -1;
    if (fd < 0) {
        const char *path = getenv("SHIM_IMAGE");
        int low = real_open(AT_FDCWD, path, O_RDWR, 0);
        if (low < 0) stop("the drive cannot be opened", path);
        fd = high(low);
    }
    return fd;
}

static struct held *find_held(long long sector) {
    for (size_t i = 0; i < held_count; i++)
        if (held[i].sector == sector) return &held[i];
    return NULL;
}

static void hold(const unsigned char *from, size_t n, off_t at) {
    while (n > 0) {
        long long sector = at / SECTOR;
        size_t start = (size_t)(at % SECTOR), part = SECTOR - start < n ? SECTOR - start : n;
        struct held *h = find_held(sector);
        if (!h) {
            held = realloc(held, (held_count + 1) * sizeof *held);
            if (!held) stop("memory", "none left");
            h = &held[held_count++];
            h->sector = sector;
            memset(h->bytes, 0, SECTOR);
            real_pread(drive(), h->bytes, SECTOR, sector * SECTOR);
        }
        memcpy(h->bytes + start, from, part);
        from += part, n -= part, at += (off_t)part;
    }
}

/* Puts what is held over bytes that were read. */
static void see_held(unsigned char *to, size_t n, off_t at) {
    for (size_t i = 0; i < held_count; i++) {
        off_t begin = held[i].sector * SECTOR, end = begin + SECTOR, stop_at = at + (off_t)n;
        off_t low = begin > at ? begin : at, high = end < stop_at ? end : stop_at;
        if (low < high) memcpy(to + (low - at), held[i].bytes + (low - begin), (size_t)(high - low));
    }
}

static void land(const struct held *h) {
    if (real_pwrite(drive(), h->bytes, SECTOR, h->sector * SECTOR) != SECTOR) stop("the drive", "cannot be written to");
}

static void land_all(void) {
    for (size_t i = 0; i < held_count; i++) land(&held[i]);
    held_count = 0;
}

/* The number of a seed at a position (splitmix64). */
static uint64_t seeded(uint64_t seed, uint64_t position) {
    uint64_t z = seed * 0x9E3779B97F4A7C15u + (position + 1) * 0xD1342543DE82EF95u;
    z = (z ^ (z >> 30)) * 0xBF58476D1CE4E5B9u;
    z = (z ^ (z >> 27)) * 0x94D049BB133111EBu;
    return z ^ (z >> 31);
}

static int kept(size_t i) {
    const char *keep = getenv("SHIM_KEEP");
    if (!keep || strcmp(keep, "all") == 0) return 1;
    if (strcmp(keep, "none") == 0) return 0;
    return (int)(seeded(strtoull(keep, NULL, 10), i) >> 40 & 1);
}

/* What the wild sector ends up as. */
static void make_wild(struct held *h, const char *how) {
    unsigned char old[SECTOR] = {0};
    real_pread(drive(), old, SECTOR, h->sector * SECTOR);
    if (strcmp(how, "torn") == 0) {
        memcpy(h->bytes + SECTOR / 2, old + SECTOR / 2, SECTOR / 2);
    } else if (strcmp(how, "late") == 0) {
        memcpy(h->bytes, old, SECTOR / 2);
    } else if (strchr(how, '/')) {
        int fd = real_open(AT_FDCWD, how, O_RDONLY, 0);
        if (fd < 0 || real_pread(fd, h->bytes, SECTOR, 0) != SECTOR) stop("SHIM_WILD: cannot be read", how);
        syscall(SYS_close, fd);
    } else {
        uint64_t seed = strtoull(how, NULL, 10);
        for (size_t i = 0; i < SECTOR; i++) h->bytes[i] = (unsigned char)(seeded(seed, i) >> 32);
    }
}

static void lose_power(const char *event) {
    const char *wild = getenv("SHIM_WILD"), *how = wild ? strchr(wild, ':') : NULL;
    if (wild && !how) stop("SHIM_WILD", wild);
    size_t which = held_count;
    if (wild && held_count > 0) which = strncmp(wild, "last:", 5) == 0 ? held_count - 1 : strtoull(wild, NULL, 10);
    for (size_t i = 0; i < held_count; i++) {
        if (i == which) make_wild(&held[i], how + 1);
        if (i == which || kept(i)) land(&held[i]);
    }
    held_count = 0;
    log_line("cut %s - - -\n", event);
}

/* Counts a write or a flush; power may go in it. */
static void pass_event(void) {
    const char *cut = getenv("SHIM_CUT");
    events++;
    if (cut && strtoul(cut, NULL, 10) == events) {
        lose_power(cut);
        _exit(CUT_STATUS);
    }
}

__attribute__((destructor)) static void at_the_end(void) {
    if (cutting() && held_count > 0) lose_power("end");
}

/* ---- the calls ---- */

static int open_file(int folder, const char *path, int flags, mode_t mode) {
    if (!is_drive_path(folder, path)) return real_open(folder, path, flags, mode);
    int fd = admitted(OPEN, 0) < 0 ? -1 : real_open(folder, path, flags, mode);
    log_call(OPEN, -1, 0, fd);
    return fd;
}

static ssize_t read_drive(int fd, void *to, size_t n, off_t at) {
    ssize_t m = admitted(READ, n), result = -1;
    if (m >= 0 && touches_unreadable(at, (size_t)m)) errno = EIO;
    else if (m >= 0) result = real_pread(fd, to, (size_t)m, at);
    if (result > 0) see_held(to, (size_t)result, at);
    log_call(READ, at, n, result);
    return result;
}

static ssize_t write_drive(int fd, const void *from, size_t n, off_t at) {
    ssize_t m = admitted(WRITE, n), result = m;
    if (m >= 0 && !cutting()) result = real_pwrite(fd, from, (size_t)m, at);
    if (m >= 0 && cutting()) hold(from, (size_t)m, at);
    log_call(WRITE, at, n, result);
    if (result > 0) note_written(at, (size_t)result);
    if (result >= 0) pass_event();
    return result;
}

static int flush_drive(void) {
    int result = admitted(FLUSH, 0) < 0 ? -1 : 0;
    log_call(FLUSH, -1, 0, result);
    if (result == 0) {
        pass_event();
        land_all();
    }
    return result;
}

#define OPEN_MODE(flags)                                  \
    mode_t mode = 0;                                      \
    if ((flags) & (O_CREAT | __O_TMPFILE)) {              \
        va_list rest;                                     \
        va_start(rest, flags);                            \
        mode = (mode_t)va_arg(rest, int);                 \
        va_end(rest);                                     \
    }

int open(const char *path, int flags, ...) {
    OPEN_MODE(flags)
    return open_file(AT_FDCWD, path, flags, mode);
}
int open64(const char *path, int flags, ...) {
    OPEN_MODE(flags)
    return open_file(AT_FDCWD, path, flags, mode);
}
int openat(int folder, const char *path, int flags, ...) {
    OPEN_MODE(flags)
    return open_file(folder, path, flags, mode);
}
int openat64(int folder, const char *path, int flags, ...) {
    OPEN_MODE(flags)
    return open_file(folder, path, flags, mode);
}
int __open_2(const char *path, int flags) { return open_file(AT_FDCWD, path, flags, 0); }
int __open64_2(const char *path, int flags) { return open_file(AT_FDCWD, path, flags, 0); }

ssize_t pread(int fd, void *to, size_t n, off_t at) {
    return is_drive(fd) ? read_drive(fd, to, n, at) : real_pread(fd, to, n, at);
}
ssize_t pread64(int fd, void *to, size_t n, off64_t at) { return pread(fd, to, n, at); }
ssize_t __pread_chk(int fd, void *to, size_t n, off_t at, size_t room) { return (void)room, pread(fd, to, n, at); }
ssize_t __pread64_chk(int fd, void *to, size_t n, off64_t at, size_t room) { return (void)room, pread(fd, to, n, at); }

ssize_t pwrite(int fd, const void *from, size_t n, off_t at) {
    return is_drive(fd) ? write_drive(fd, from, n, at) : real_pwrite(fd, from, n, at);
}
ssize_t pwrite64(int fd, const void *from, size_t n, off64_t at) { return pwrite(fd, from, n, at); }

ssize_t read(int fd, void *to, size_t n) {
    off_t at;
    if (!is_drive(fd) || (at = lseek(fd, 0, SEEK_CUR)) < 0) return syscall(SYS_read, fd, to, n);
    ssize_t result = read_drive(fd, to, n, at);
    if (result > 0) lseek(fd, at + result, SEEK_SET);
    return result;
}
ssize_t __read_chk(int fd, void *to, size_t n, size_t room) { return (void)room, read(fd, to, n); }

ssize_t write(int fd, const void *from, size_t n) {
    off_t at;
    if (is_drive(fd) && (at = lseek(fd, 0, SEEK_CUR)) >= 0) {
        ssize_t result = write_drive(fd, from, n, at);
        if (result > 0) lseek(fd, at + result, SEEK_SET);
        return result;
    }
    if (fd == 2) {
        ssize_t m = admitted(ERR, n);
        return m < 0 ? -1 : real_write(fd, from, (size_t)m);
    }
    if (fd != 1) return real_write(fd, from, n);
    ssize_t m = admitted(OUT, n), result = m < 0 ? -1 : real_write(fd, from, (size_t)m);
    log_call(OUT, -1, n, result);
    return result;
}

int fsync(int fd) { return is_drive(fd) ? flush_drive() : (int)syscall(SYS_fsync, fd); }
int fdatasync(int fd) { return is_drive(fd) ? flush_drive() : (int)syscall(SYS_fdatasync, fd); }

int posix_fadvise(int fd, off_t at, off_t n, int advice) {
    if (getenv("SHIM_FORGET") && advice == POSIX_FADV_DONTNEED && is_drive(fd)) log_line("forget\n");
    return syscall(SYS_fadvise64, fd, at, n, advice) < 0 ? errno : 0;
}

int clock_gettime(clockid_t clock, struct timespec *to) {
    const char *fixed = getenv("SHIM_TIME");
    if (!fixed || clock != CLOCK_REALTIME) return (int)syscall(SYS_clock_gettime, clock, to);
    char *end;
    to->tv_sec = (time_t)strtoll(fixed, &end, 10);
    to->tv_nsec = *end == '.' ? strtol(end + 1, NULL, 10) : 0;
    return 0;
}
