/* The command's edge to the system: descriptors, the image, the clock and the terminal. Everything else is proved Rattle. It is linked
 * before the program crates/run, and takes the place of its main (--wrap=main). What the program's library
 * has no call for is done where it calls the system (--wrap=open and so on). */
#define _GNU_SOURCE
#include <errno.h>
#include <fcntl.h>
#include <signal.h>
#include <stdarg.h>
#include <stdint.h>
#include <stdio.h>
#include <stdlib.h>
#include <string.h>
#include <sys/file.h>
#include <sys/ioctl.h>
#include <sys/stat.h>
#include <time.h>
#include <unistd.h>

struct request { uint32_t status, access; uint64_t image; };
struct request amseokbin_request(const uint8_t *arguments, size_t length);

/* The program's own main, and the calls as the C library has them. */
int __real_main(int argc, char **argv);
int __real_open(const char *path, int flags, ...);
int __real_unlink(const char *path);
int __real_fsync(int fd);
ssize_t __real_pwrite(int fd, const void *bytes, size_t length, off_t at);
ssize_t __real_write(int fd, const void *bytes, size_t length);

/* The image, by which name the program opens it, and whether it is open for writing. */
static int image = -1, stores;
static char image_name[40];

/* A FILE whose name is no text, and what the program calls it (crates/command/src/files.rt). */
static const char *no_text;
static const char stands_for[] = "the file whose name is no text";

/* Whether bytes are UTF-8, by the same rules as the program's library. */
static int is_text(const char *s)
{
    const unsigned char *b = (const unsigned char *)s;
    while (*b) {
        unsigned low = 0x80, high = 0xbf;
        int more = *b < 0x80 ? 0 : *b >= 0xc2 && *b <= 0xdf ? 1 : *b >= 0xe0 && *b <= 0xef ? 2 : *b >= 0xf0 && *b <= 0xf4 ? 3 : -1;
        if (more < 0)
            return 0;
        if (*b == 0xe0)
            low = 0xa0;
        if (*b == 0xed)
            high = 0x9f;
        if (*b == 0xf0)
            low = 0x90;
        if (*b == 0xf4)
            high = 0x8f;
        for (b++; more > 0; more--, b++) {
            if (*b < low || *b > high)
                return 0;
            low = 0x80;
            high = 0xbf;
        }
    }
    return 1;
}

/* The name that is meant. */
static const char *meant(const char *path)
{
    return no_text && strcmp(path, stands_for) == 0 ? no_text : path;
}

int __wrap_open(const char *path, int flags, ...)
{
    va_list rest;
    va_start(rest, flags);
    mode_t mode = flags & O_CREAT ? va_arg(rest, mode_t) : 0;
    va_end(rest);
    if (image >= 0 && strcmp(path, image_name) == 0)
        return fcntl(image, F_DUPFD_CLOEXEC, 3);
    return __real_open(meant(path), flags, mode);
}

int __wrap_unlink(const char *path)
{
    return __real_unlink(meant(path));
}

/* What the system keeps of the image in memory is let go, so that it is read from the device again. */
static void forget(void)
{
    int before = errno;
    if (stores)
        posix_fadvise(image, 0, 0, POSIX_FADV_DONTNEED);
    errno = before;
}

int __wrap_fsync(int fd)
{
    int status = __real_fsync(fd);
    forget();
    return status;
}

ssize_t __wrap_pwrite(int fd, const void *bytes, size_t length, off_t at)
{
    ssize_t written = __real_pwrite(fd, bytes, length, at);
    if (written < 0)
        forget();
    return written;
}

/* What a signal interrupts on standard error is taken up again. */
ssize_t __wrap_write(int fd, const void *bytes, size_t length)
{
    ssize_t written = -1;
    for (int turn = 0; turn < 100000; turn++) {
        written = __real_write(fd, bytes, length);
        if (written >= 0 || errno != EINTR || fd != 2)
            break;
    }
    return written;
}

/* A closed standard descriptor is filled so that the image never gets its number. Using it still fails: it is open the wrong
   way round. */
static int fill_standard(void)
{
    for (;;) {
        int fd = open("/dev/null", O_RDONLY);
        if (fd < 0 || fd > 2)
            return fd < 0 ? -1 : close(fd);
        if (fd == 0 && (close(fd) != 0 || open("/dev/null", O_WRONLY) != 0))
            return -1;
    }
}

static int complain(const char *path, const char *what)
{
    fprintf(stderr, "%s: %s\n", path, what);
    return -1;
}

/* The image, open: a regular file, locked against another amseokbin, or a block device, held alone where it is to be written. */
static int open_image(const char *path, int writes)
{
    struct stat s;
    if (stat(path, &s) != 0)
        return complain(path, strerror(errno));
    if (!S_ISREG(s.st_mode) && !S_ISBLK(s.st_mode))
        return complain(path, "neither a regular file nor a block device");
    int flags = (writes ? O_RDWR : O_RDONLY) | O_NONBLOCK | O_NOCTTY | O_CLOEXEC;
    int fd = open(path, S_ISBLK(s.st_mode) && writes ? flags | O_EXCL : flags);
    if (fd < 0)
        return complain(path, errno == EBUSY ? "in use: mounted, or held by another process" : strerror(errno));
    if (fstat(fd, &s) != 0 || (!S_ISREG(s.st_mode) && !S_ISBLK(s.st_mode)))
        return complain(path, "neither a regular file nor a block device");
    if (S_ISREG(s.st_mode) && flock(fd, (writes ? LOCK_EX : LOCK_SH) | LOCK_NB) != 0 && errno == EWOULDBLOCK)
        return complain(path, "in use by another process");
    return fd;
}

/* What the command line wants: its arguments one after the other, each ended by a zero byte, are lent for that. */
static struct request asked(int argc, char **argv)
{
    struct request none = {3, 0, 0}, a;
    size_t length = 0, at = 0;
    for (int i = 0; i < argc; i++)
        length += strlen(argv[i]) + 1;
    uint8_t *all = malloc(length + 1);
    if (!all) {
        complain("amseokbin", "no memory for the arguments");
        return none;
    }
    for (int i = 0; i < argc; i++) {
        size_t n = strlen(argv[i]) + 1;
        memcpy(all + at, argv[i], n);
        at += n;
    }
    a = amseokbin_request(all, length);
    free(all);
    return a;
}

int __wrap_main(int argc, char **argv)
{
    static char machine[128];
    unsigned columns = 0, nanoseconds = 0;
    unsigned long long seconds = 0;
    struct timespec now;
    struct winsize size;
    if (fill_standard() != 0)
        return 3;
    signal(SIGPIPE, SIG_IGN);
    signal(SIGXFSZ, SIG_IGN);
    struct request a = asked(argc, argv);
    if (a.access == 0 || a.image >= (uint64_t)argc)
        return (int)a.status;
    if (a.image != 0) {
        image = open_image(argv[a.image], a.access == 2);
        if (image < 0)
            return 3;
        stores = a.access == 2;
        snprintf(image_name, sizeof image_name, "/proc/self/fd/%d", image);
    }
    /* All other arguments that the command takes are text, or it has refused them. */
    for (int i = 1; i < argc; i++)
        if ((uint64_t)i != a.image && !is_text(argv[i]))
            no_text = argv[i];
    if (clock_gettime(CLOCK_REALTIME, &now) == 0 && now.tv_sec >= 0) {
        seconds = (unsigned long long)now.tv_sec;
        nanoseconds = (unsigned)now.tv_nsec;
    }
    if (ioctl(1, TIOCGWINSZ, &size) == 0)
        columns = size.ws_col;
    /* What the machine gives stands in the place of the command's name, which nothing reads. */
    snprintf(machine, sizeof machine, "%u %d %u %llu %u", (unsigned)a.access, image < 0 ? 0 : image, columns, seconds, nanoseconds);
    argv[0] = machine;
    return __real_main(argc, argv);
}
