/*
 * A library between a program and the C library (LD_PRELOAD). It notes each call that reaches the store's file, its folder or
 * the standard streams, and has one of them fail, or the process end there.
 *
 *   SHIM_FILE   the path of the store's file, as the program opens it
 *   SHIM_LOG    a file that gets a line for each call: KIND PLACE SIZE RESULT WAY
 *   SHIM_FAULT  KIND NUMBER TIMES WAY ERROR: which way the call goes that has this number among those of this kind, from 1,
 *               and those after it, TIMES in all, or for ever if TIMES is 0
 *
 * A kind is what a call reaches and its name: file.write, folder.fsync, input.read. Allocations are of the kind
 * memory.allocate, and are noted only if the fault is of it. PLACE is where in the file the call begins, or -1. RESULT is what
 * it returned, or minus its error. tests/shim.py starts programs under this.
 */

#define _GNU_SOURCE
#include <errno.h>
#include <fcntl.h>
#include <signal.h>
#include <stdarg.h>
#include <stdbool.h>
#include <stdio.h>
#include <stdlib.h>
#include <string.h>
#include <sys/stat.h>
#include <sys/syscall.h>
#include <unistd.h>

enum { NUMBERS = 1024, LOG_FROM = 900 }; /* descriptors; the log's is out of the program's way */

enum way {
    NONE,  /* the call is made */
    ERROR, /* it is not made, and fails with the error */
    SHORT, /* it transfers half of the bytes */
    FULL,  /* so at first, if it has two bytes; then it fails with the error, as on a device that is full */
    STOP,  /* the process is killed before it */
    TORN,  /* it transfers half of the bytes, and then the process is killed */
    CUT,   /* all that was written since the last sync is lost, and the process is killed, as by a cut of power */
    DROP,  /* all that was written since the last sync is lost, and the call fails with the error */
};

static const char *const WAYS[] = {"none", "error", "short", "full", "stop", "torn", "cut", "drop"};

static struct {
    char kind[32];
    long number, times;
    enum way way;
    int error;
} fault;

struct call {
    char kind[32]; /* empty for one that is not noted */
    long place, size;
    enum way way;
};

/* Bytes of the file before a write that was not synced yet. */
struct piece {
    struct piece *before;
    long place, file_size, size;
    char bytes[];
};

static const char *file = "";
static int log_number = -1;
static long met; /* calls of the fault's kind */
static struct piece *unsynced;
static const char *reached[NUMBERS] = {"input", "output", "complaint"};

extern void *__libc_malloc(size_t size);
extern void *__libc_realloc(void *block, size_t size);

__attribute__((constructor)) static void prepare(void)
{
    char way[16] = "none";
    const char *told = getenv("SHIM_FAULT"), *log = getenv("SHIM_LOG");
    if (getenv("SHIM_FILE") != NULL)
        file = getenv("SHIM_FILE");
    if (told != NULL && sscanf(told, "%31s %ld %ld %15s %d", fault.kind, &fault.number, &fault.times, way, &fault.error) != 5)
        abort();
    while (strcmp(way, WAYS[fault.way]) != 0)
        if (++fault.way == sizeof WAYS / sizeof *WAYS)
            abort();
    if (log != NULL) {
        int opened = syscall(SYS_openat, AT_FDCWD, log, O_WRONLY | O_CREAT | O_APPEND, 0600);
        log_number = fcntl(opened, F_DUPFD_CLOEXEC, LOG_FROM);
        syscall(SYS_close, opened);
    }
}

/* What a path is to the store: its file, its folder, or another one. */
static const char *named(const char *path)
{
    const char *slash = strrchr(file, '/');
    if (strcmp(path, file) == 0)
        return "file";
    return slash != NULL && strlen(path) == (size_t)(slash - file) && strncmp(path, file, strlen(path)) == 0 ? "folder" : "other";
}

static const char *reached_by(int number)
{
    return 0 <= number && number < NUMBERS ? reached[number] : NULL;
}

static void note(const struct call *call, long result)
{
    char line[128];
    if (log_number < 0 || call->kind[0] == 0)
        return;
    int size = snprintf(line, sizeof line, "%s %ld %ld %ld %s\n", call->kind, call->place, call->size, result, WAYS[call->way]);
    syscall(SYS_write, log_number, line, size);
}

/* Keeps what a write to the file goes over, if it may have to be taken back. */
static void keep(const struct call *call, int number)
{
    struct stat now;
    if ((fault.way != CUT && fault.way != DROP) || strncmp(call->kind, "file.", 5) != 0 || fstat(number, &now) != 0)
        return;
    struct piece *piece = __libc_malloc(sizeof *piece + call->size);
    piece->before = unsynced;
    piece->place = call->place;
    piece->file_size = now.st_size;
    piece->size = syscall(SYS_pread64, number, piece->bytes, call->size, call->place);
    unsynced = piece;
}

/* Has the file as it was at its last sync. */
static void take_back(void)
{
    int number = syscall(SYS_openat, AT_FDCWD, file, O_WRONLY | O_CLOEXEC);
    for (; unsynced != NULL; unsynced = unsynced->before) {
        syscall(SYS_pwrite64, number, unsynced->bytes, unsynced->size, unsynced->place);
        syscall(SYS_ftruncate, number, unsynced->file_size);
    }
    syscall(SYS_close, number);
}

static void end_process(const struct call *call)
{
    note(call, 0);
    syscall(SYS_kill, getpid(), SIGKILL);
}

static enum way way_of(const char *kind, long size)
{
    if (strcmp(kind, fault.kind) != 0 || ++met < fault.number)
        return NONE;
    if (fault.times > 0 && met >= fault.number + fault.times)
        return NONE;
    return fault.way == FULL && (met > fault.number || size < 2) ? ERROR : fault.way;
}

/* Begins a call on what is reached, if that is anything, at this offset. It ends the process if the fault says so. */
static struct call begin_at(const char *what, const char *name, long place, long size)
{
    struct call call = {.place = place, .size = size};
    if (what == NULL)
        return call;
    snprintf(call.kind, sizeof call.kind, "%s.%s", what, name);
    call.way = way_of(call.kind, size);
    if (call.way == CUT || call.way == DROP)
        take_back();
    if (call.way == CUT || call.way == STOP)
        end_process(&call);
    return call;
}

/* The same where the file stands, if a number of it is given. */
static struct call begin(const char *what, const char *name, int number, long size)
{
    bool has_place = what != NULL && number >= 0 && strcmp(what, "file") == 0;
    return begin_at(what, name, has_place ? syscall(SYS_lseek, number, 0, SEEK_CUR) : -1, size);
}

/* Whether the call is not made and fails. It sets errno then. */
static bool fails(const struct call *call)
{
    if (call->way != ERROR && call->way != DROP)
        return false;
    errno = fault.error;
    return true;
}

/* How many of its bytes the call is to transfer. */
static size_t portion(const struct call *call)
{
    if (call->way == TORN)
        return call->size / 2;
    return call->way == SHORT || call->way == FULL ? (call->size + 1) / 2 : call->size;
}

/* Ends a call, and gives its result with its errno. */
static long end(const struct call *call, long result)
{
    int error = errno;
    if (call->way == TORN)
        end_process(call);
    note(call, result < 0 ? -error : result);
    errno = error;
    return result;
}

int open(const char *path, int flags, ...)
{
    va_list rest;
    va_start(rest, flags);
    mode_t mode = flags & O_CREAT ? va_arg(rest, mode_t) : 0;
    va_end(rest);
    const char *what = named(path);
    struct call call = begin(what, "open", -1, 0);
    int number = fails(&call) ? -1 : syscall(SYS_openat, AT_FDCWD, path, flags, mode);
    if (0 <= number && number < NUMBERS)
        reached[number] = what;
    return end(&call, number);
}

int statx(int folder, const char *path, int flags, unsigned int mask, struct statx *found)
{
    struct call call = begin(named(path), "statx", -1, 0);
    return end(&call, fails(&call) ? -1 : syscall(SYS_statx, folder, path, flags, mask, found));
}

ssize_t readlink(const char *path, char *into, size_t size)
{
    struct call call = begin(named(path), "readlink", -1, 0);
    return end(&call, fails(&call) ? -1 : syscall(SYS_readlink, path, into, size));
}

off_t lseek(int number, off_t to, int from)
{
    struct call call = begin(reached_by(number), "lseek", number, 0);
    return end(&call, fails(&call) ? -1 : syscall(SYS_lseek, number, to, from));
}

ssize_t read(int number, void *into, size_t size)
{
    struct call call = begin(reached_by(number), "read", number, size);
    return end(&call, fails(&call) ? -1 : syscall(SYS_read, number, into, portion(&call)));
}

ssize_t write(int number, const void *bytes, size_t size)
{
    struct call call = begin(reached_by(number), "write", number, size);
    if (fails(&call))
        return end(&call, -1);
    keep(&call, number);
    return end(&call, syscall(SYS_write, number, bytes, portion(&call)));
}

ssize_t pread(int number, void *into, size_t size, off_t at)
{
    struct call call = begin_at(reached_by(number), "read", at, size);
    return end(&call, fails(&call) ? -1 : syscall(SYS_pread64, number, into, portion(&call), at));
}

ssize_t pread64(int number, void *into, size_t size, off64_t at)
{
    return pread(number, into, size, at);
}

ssize_t pwrite(int number, const void *bytes, size_t size, off_t at)
{
    struct call call = begin_at(reached_by(number), "write", at, size);
    if (fails(&call))
        return end(&call, -1);
    keep(&call, number);
    return end(&call, syscall(SYS_pwrite64, number, bytes, portion(&call), at));
}

ssize_t pwrite64(int number, const void *bytes, size_t size, off64_t at)
{
    return pwrite(number, bytes, size, at);
}

static int synced(int number, const char *name, long system_call)
{
    const char *what = reached_by(number);
    struct call call = begin(what, name, number, 0);
    if (fails(&call))
        return end(&call, -1);
    int result = syscall(system_call, number);
    if (result == 0 && what != NULL && strcmp(what, "file") == 0)
        unsynced = NULL;
    return end(&call, result);
}

int fdatasync(int number)
{
    return synced(number, "fdatasync", SYS_fdatasync);
}

int fsync(int number)
{
    return synced(number, "fsync", SYS_fsync);
}

int close(int number)
{
    struct call call = begin(reached_by(number), "close", number, 0);
    if (0 <= number && number < NUMBERS)
        reached[number] = NULL;
    int result = syscall(SYS_close, number); /* a close that fails has closed it none the less */
    return end(&call, fails(&call) ? -1 : result);
}

static const char *memory(void)
{
    return strncmp(fault.kind, "memory.", 7) == 0 ? "memory" : NULL;
}

void *malloc(size_t size)
{
    struct call call = begin(memory(), "allocate", -1, size);
    void *block = fails(&call) ? NULL : __libc_malloc(size);
    end(&call, block == NULL ? -1 : 0);
    return block;
}

void *realloc(void *block, size_t size)
{
    struct call call = begin(memory(), "allocate", -1, size);
    void *moved = fails(&call) ? NULL : __libc_realloc(block, size);
    end(&call, moved == NULL ? -1 : 0);
    return moved;
}
