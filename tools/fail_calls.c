/* Fails one call of a program to the system, for tools/harden. Preloaded by LD_PRELOAD, it stands before open, read, write and their kin,
 * and before malloc and realloc, and counts the calls of each kind.
 *
 * Before main it becomes a server, so that a program that is tried many times on the same words is loaded once: it reads a struct job from
 * descriptor 198, forks, and writes the status of the child to descriptor 199. The child reads the file `given`, writes the files `output`
 * and `errors`, and goes on to main. At the end of the jobs the server ends. Its words stand in the environment:
 *   FAIL_FILE     the name of the program's file, as the program opens it
 *   FAIL_COUNTS   a file of KINDS + 1 numbers of 8 bytes that gets the counts of the last child, and the most memory that it had, in KB
 *   FAIL_SECONDS  after how many seconds a child is ended by SIGALRM
 * What is asked of other files and before main is passed on and not counted. */
#define _GNU_SOURCE
#include <errno.h>
#include <fcntl.h>
#include <stdarg.h>
#include <stdint.h>
#include <stdlib.h>
#include <string.h>
#include <sys/mman.h>
#include <sys/resource.h>
#include <sys/syscall.h>
#include <sys/types.h>
#include <sys/uio.h>
#include <sys/wait.h>
#include <unistd.h>

/* The kinds of calls. */
enum kind {
    READ_INPUT,  /* a read of standard input */
    OPEN_FILE,   /* an open of the file to read it */
    SEEK_FILE,   /* a seek in the file */
    READ_FILE,   /* a read of the file */
    CLEAR_FILE,  /* an open of the file that makes it empty, or a truncation */
    APPEND_FILE, /* an open of the file to write behind its end */
    WRITE_FILE,  /* a write to the file */
    WRITE_OUTPUT, /* a write to standard output */
    MEMORY,      /* a request for memory */
    KINDS
};

/* What a call that fails answers: an error (ENOMEM for memory, else EIO), EINTR, ENOSPC, 0 bytes; or an error from that call on. */
enum how { ERROR, INTERRUPTED, FULL, NOTHING, REST };

/* The kind whose call is to fail, or -1; which call, from 0; how; and the most bytes that a read or a write moves. */
struct job {
    int64_t kind;
    uint64_t nth, how, most;
};

enum { JOBS = 198, STATUSES = 199 };

static uint64_t unread[KINDS + 1];
static uint64_t *counts = unread;
static const char *file_name = "";
static struct job job = {-1, 0, ERROR, SIZE_MAX};
static int begun;
/* Which descriptors are the file's. */
static unsigned char is_file[1024];

extern void *__libc_malloc(size_t);
extern void *__libc_realloc(void *, size_t);
extern void *__libc_calloc(size_t, size_t);

/* Makes a descriptor be of a file. */
static void reopen(int descriptor, const char *name, int flags)
{
    int opened = (int) syscall(SYS_openat, AT_FDCWD, name, flags, 0600);
    if (opened < 0)
        _exit(126);
    dup2(opened, descriptor);
    if (opened != descriptor)
        syscall(SYS_close, opened);
}

/* Forks for each job, and returns in the child. */
static void serve(void)
{
    const char *seconds = getenv("FAIL_SECONDS");
    while (syscall(SYS_read, JOBS, &job, sizeof job) == (ssize_t) sizeof job) {
        memset(counts, 0, sizeof unread);
        pid_t child = fork();
        if (child == 0) {
            syscall(SYS_close, JOBS);
            syscall(SYS_close, STATUSES);
            reopen(0, "given", O_RDONLY);
            reopen(1, "output", O_WRONLY | O_CREAT | O_TRUNC);
            reopen(2, "errors", O_WRONLY | O_CREAT | O_TRUNC);
            alarm(seconds ? (unsigned) atoi(seconds) : 0);
            begun = 1;
            return;
        }
        int status = 127 << 8;
        struct rusage used = {0};
        if (child > 0)
            wait4(child, &status, 0, &used);
        counts[KINDS] = (uint64_t) used.ru_maxrss;
        if (syscall(SYS_write, STATUSES, &status, sizeof status) != (ssize_t) sizeof status)
            break;
    }
    _exit(0);
}

__attribute__((constructor)) static void begin(void)
{
    const char *word;
    if ((word = getenv("FAIL_FILE")) != NULL)
        file_name = word;
    if ((word = getenv("FAIL_COUNTS")) != NULL) {
        int to = (int) syscall(SYS_openat, AT_FDCWD, word, O_RDWR);
        void *there = to < 0 ? MAP_FAILED : mmap(NULL, sizeof unread, PROT_READ | PROT_WRITE, MAP_SHARED, to, 0);
        if (there != MAP_FAILED)
            counts = there;
        if (to >= 0)
            syscall(SYS_close, to);
    }
    serve();
}

/* Counts a call of a kind. Whether it is to fail; then errno is set. */
static int fails(enum kind kind)
{
    if (!begun)
        return 0;
    uint64_t call = counts[kind]++;
    if ((int64_t) kind != job.kind || call < job.nth || (call > job.nth && job.how != REST))
        return 0;
    errno = kind == MEMORY ? ENOMEM : job.how == INTERRUPTED ? EINTR : job.how == FULL ? ENOSPC : EIO;
    return 1;
}

/* What a call that fails answers. */
static ssize_t failed(void)
{
    return job.how == NOTHING ? 0 : -1;
}

static int is_of_file(int descriptor)
{
    return descriptor >= 0 && descriptor < 1024 && is_file[descriptor];
}

static size_t at_most(size_t count)
{
    return count < job.most ? count : (size_t) job.most;
}

static int open_at(int folder, const char *name, int flags, mode_t mode)
{
    int of_file = begun && strcmp(name, file_name) == 0;
    enum kind kind = flags & O_TRUNC ? CLEAR_FILE : (flags & O_ACCMODE) == O_RDONLY ? OPEN_FILE : APPEND_FILE;
    if (of_file && fails(kind))
        return -1;
    int descriptor = (int) syscall(SYS_openat, folder, name, flags, mode);
    if (descriptor >= 0 && descriptor < 1024)
        is_file[descriptor] = (unsigned char) of_file;
    return descriptor;
}

/* The mode behind the flags, where the flags ask for one. */
#define MODE(flags, mode)                                  \
    mode_t mode = 0;                                       \
    if ((flags) & (O_CREAT | O_TMPFILE)) {                 \
        va_list rest;                                      \
        va_start(rest, flags);                             \
        mode = (mode_t) va_arg(rest, unsigned);            \
        va_end(rest);                                      \
    }

int open(const char *name, int flags, ...)
{
    MODE(flags, mode)
    return open_at(AT_FDCWD, name, flags, mode);
}

int open64(const char *name, int flags, ...)
{
    MODE(flags, mode)
    return open_at(AT_FDCWD, name, flags | O_LARGEFILE, mode);
}

int openat(int folder, const char *name, int flags, ...)
{
    MODE(flags, mode)
    return open_at(folder, name, flags, mode);
}

int openat64(int folder, const char *name, int flags, ...)
{
    MODE(flags, mode)
    return open_at(folder, name, flags | O_LARGEFILE, mode);
}

int creat(const char *name, mode_t mode)
{
    return open_at(AT_FDCWD, name, O_WRONLY | O_CREAT | O_TRUNC, mode);
}

off_t lseek(int descriptor, off_t offset, int whence)
{
    if (is_of_file(descriptor) && fails(SEEK_FILE))
        return -1;
    return (off_t) syscall(SYS_lseek, descriptor, offset, whence);
}

off_t lseek64(int descriptor, off_t offset, int whence)
{
    return lseek(descriptor, offset, whence);
}

int ftruncate(int descriptor, off_t length)
{
    if (is_of_file(descriptor) && fails(CLEAR_FILE))
        return -1;
    return (int) syscall(SYS_ftruncate, descriptor, length);
}

int ftruncate64(int descriptor, off_t length)
{
    return ftruncate(descriptor, length);
}

ssize_t read(int descriptor, void *to, size_t count)
{
    if ((descriptor == 0 && fails(READ_INPUT)) || (is_of_file(descriptor) && fails(READ_FILE)))
        return failed();
    return syscall(SYS_read, descriptor, to, descriptor == 0 || is_of_file(descriptor) ? at_most(count) : count);
}

ssize_t pread(int descriptor, void *to, size_t count, off_t from)
{
    if (is_of_file(descriptor) && fails(READ_FILE))
        return failed();
    return syscall(SYS_pread64, descriptor, to, is_of_file(descriptor) ? at_most(count) : count, from);
}

ssize_t pread64(int descriptor, void *to, size_t count, off_t from)
{
    return pread(descriptor, to, count, from);
}

ssize_t write(int descriptor, const void *from, size_t count)
{
    if ((descriptor == 1 && fails(WRITE_OUTPUT)) || (is_of_file(descriptor) && fails(WRITE_FILE)))
        return failed();
    return syscall(SYS_write, descriptor, from, descriptor == 1 || is_of_file(descriptor) ? at_most(count) : count);
}

ssize_t __write(int descriptor, const void *from, size_t count)
{
    return write(descriptor, from, count);
}

ssize_t writev(int descriptor, const struct iovec *parts, int count)
{
    if (count > 0 && (descriptor == 1 || is_of_file(descriptor)))
        return write(descriptor, parts[0].iov_base, parts[0].iov_len);
    return syscall(SYS_writev, descriptor, parts, count);
}

void *malloc(size_t size)
{
    return fails(MEMORY) ? NULL : __libc_malloc(size);
}

void *calloc(size_t count, size_t size)
{
    return fails(MEMORY) ? NULL : __libc_calloc(count, size);
}

void *realloc(void *old, size_t size)
{
    return fails(MEMORY) ? NULL : __libc_realloc(old, size);
}
