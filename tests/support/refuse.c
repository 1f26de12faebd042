/* Loaded before a program's libraries (LD_PRELOAD), this refuses one of the program's calls, and
   then creates the file MARK. REFUSE is KIND:N or KIND:N:HOW, and the N-th call of that kind is
   refused; the first call has number 1.
     allocate:N     malloc, calloc, realloc and the like return NULL
     thread:N       pthread_create returns EAGAIN. Each started thread begins LATE milliseconds
                    later, so a program that doesn't wait for it continues before that. At the next
                    write, MARK gets three numbers: how many threads were started, how many of them
                    had begun, and how many have ended, once as many have as were started before
                    the refusal, or after ten seconds
     read:N:HOW     read; HOW is EIO, EINTR, `short` (one byte) or `half` (of the bytes asked for)
     write:N:HOW    write; HOW is EIO, ENOSPC, EPIPE, `short` or `half`
     open:N:HOW     an open without O_CREAT; HOW is EACCES, EMFILE, ENOENT or ELOOP
     create:N:HOW   an open with O_EXCL; HOW is EACCES, EMFILE or ENOSPC. With SIGTERM the file is
                    created, and then the program gets this signal
     hold:N:HOW     an open of /dev/null before any other file is opened; HOW is EMFILE
     sync:N:HOW     fsync and fdatasync; HOW is EIO, ENOSPC, or after how many seconds the call is
                    made
   A tool for tests, not part of the program. */
#define _GNU_SOURCE
#include <dlfcn.h>
#include <errno.h>
#include <fcntl.h>
#include <pthread.h>
#include <signal.h>
#include <stdarg.h>
#include <stdatomic.h>
#include <stdio.h>
#include <stdlib.h>
#include <string.h>
#include <sys/syscall.h>
#include <time.h>
#include <unistd.h>

extern void *__libc_malloc(size_t), *__libc_calloc(size_t, size_t), *__libc_realloc(void *, size_t),
    *__libc_memalign(size_t, size_t);
extern ssize_t __read(int, void *, size_t), __write(int, const void *, size_t);

enum kind { NONE, ALLOCATE, THREAD, READ, WRITE, OPEN, CREATE, HOLD, SYNC };
static enum kind refused = NONE;
static long number, late;
static const char *how = "", *mark = "";
static atomic_long calls, started, begun, ended, awaited;
static atomic_int to_be_told;

__attribute__((constructor)) static void begin(void) {
    static const char *const names[] = { "",     "allocate", "thread", "read", "write",
                                         "open", "create",   "hold",   "sync" };
    const char *refuse = getenv("REFUSE");
    mark = getenv("MARK");
    if (refuse == NULL || mark == NULL) return;
    if (getenv("LATE") != NULL) late = strtol(getenv("LATE"), NULL, 10);
    for (int kind = ALLOCATE; kind <= SYNC; kind++) {
        size_t length = strlen(names[kind]);
        if (strncmp(refuse, names[kind], length) == 0 && refuse[length] == ':') {
            char *rest;
            number = strtol(refuse + length + 1, &rest, 10);
            how = *rest == ':' ? rest + 1 : "";
            refused = (enum kind)kind;
        }
    }
}

/* Whether this call has to be refused. */
static int is_refused(enum kind kind) {
    if (kind != refused || atomic_fetch_add(&calls, 1) + 1 != number) return 0;
    close(open(mark, O_CREAT | O_WRONLY | O_CLOEXEC, 0600));
    return 1;
}

static void *no_memory(void) {
    errno = ENOMEM;
    return NULL;
}

void *malloc(size_t size) { return is_refused(ALLOCATE) ? no_memory() : __libc_malloc(size); }
void *calloc(size_t count, size_t size) {
    return is_refused(ALLOCATE) ? no_memory() : __libc_calloc(count, size);
}
void *realloc(void *block, size_t size) {
    return is_refused(ALLOCATE) ? no_memory() : __libc_realloc(block, size);
}
void *memalign(size_t align, size_t size) {
    return is_refused(ALLOCATE) ? no_memory() : __libc_memalign(align, size);
}
void *aligned_alloc(size_t align, size_t size) { return memalign(align, size); }

int posix_memalign(void **block, size_t align, size_t size) {
    void *made = memalign(align, size);
    if (made == NULL) return ENOMEM;
    *block = made;
    return 0;
}

static void sleep_for(long milliseconds) {
    nanosleep(&(struct timespec){ milliseconds / 1000, milliseconds % 1000 * 1000000 }, NULL);
}

static struct thread {
    void *(*run)(void *);
    void *argument;
} threads[1000];
static atomic_long given;

static void *run_late(void *place) {
    struct thread *thread = place;
    sleep_for(late);
    atomic_fetch_add(&begun, 1);
    void *result = thread->run(thread->argument);
    atomic_fetch_add(&ended, 1);
    return result;
}

int pthread_create(pthread_t *thread, const pthread_attr_t *attributes, void *(*run)(void *),
                   void *argument) {
    static int (*create)(pthread_t *, const pthread_attr_t *, void *(*)(void *), void *);
    if (is_refused(THREAD)) {
        atomic_store(&awaited, atomic_load(&started));
        atomic_store(&to_be_told, 1);
        return EAGAIN;
    }
    if (create == NULL) *(void **)&create = dlsym(RTLD_NEXT, "pthread_create");
    long place = atomic_fetch_add(&given, 1);
    if (place >= (long)(sizeof threads / sizeof threads[0])) abort();
    threads[place] = (struct thread){ run, argument };
    int error = create(thread, attributes, run_late, &threads[place]);
    if (error == 0) atomic_fetch_add(&started, 1);
    return error;
}

/* Reports once, after a refused start, how many of the started threads had begun and ended. A
   program that waits for a thread may continue a moment before the system has ended the thread. */
static void tell_threads(void) {
    if (!atomic_exchange(&to_be_told, 0)) return;
    long had_begun = atomic_load(&begun);
    for (int i = 0; i < 1000 && atomic_load(&ended) < atomic_load(&awaited); i++) sleep_for(10);
    char text[64];
    int length = snprintf(text, sizeof text, "%ld %ld %ld\n", atomic_load(&started), had_begun,
                          atomic_load(&ended));
    int file = open(mark, O_WRONLY | O_CLOEXEC);
    if (file < 0 || __write(file, text, (size_t)length) != length) abort();
    close(file);
}

/* How many bytes the call may transfer, or -1, with errno set. */
static ssize_t allowed(size_t size) {
    static const struct {
        const char *name;
        int error;
    } errors[] = { { "EIO", EIO },       { "EINTR", EINTR },   { "ENOSPC", ENOSPC },
                   { "EPIPE", EPIPE },   { "EACCES", EACCES }, { "EMFILE", EMFILE },
                   { "ENOENT", ENOENT }, { "ELOOP", ELOOP } };
    for (size_t i = 0; i < sizeof errors / sizeof errors[0]; i++)
        if (strcmp(how, errors[i].name) == 0) {
            errno = errors[i].error;
            return -1;
        }
    if (strcmp(how, "half") == 0) return (ssize_t)(size / 2 > 0 ? size / 2 : size);
    return size > 0 ? 1 : 0;
}

ssize_t read(int file, void *bytes, size_t size) {
    ssize_t most = is_refused(READ) ? allowed(size) : (ssize_t)size;
    return most < 0 ? -1 : __read(file, bytes, (size_t)most);
}

ssize_t write(int file, const void *bytes, size_t size) {
    tell_threads();
    ssize_t most = is_refused(WRITE) ? allowed(size) : (ssize_t)size;
    return most < 0 ? -1 : __write(file, bytes, (size_t)most);
}

/* True while only /dev/null has been opened. */
static int is_before_all(const char *path) {
    static atomic_int others;
    return strcmp(path, "/dev/null") == 0 && atomic_load(&others) == 0
               ? 1
               : (atomic_store(&others, 1), 0);
}

static int open_at(int folder, const char *path, int flags, va_list more) {
    int mode = flags & (O_CREAT | O_TMPFILE) ? va_arg(more, int) : 0;
    if ((flags & O_EXCL) && is_refused(CREATE)) {
        if (strcmp(how, "SIGTERM") != 0) return (int)allowed(0);
        int file = (int)syscall(SYS_openat, folder, path, flags, mode);
        raise(SIGTERM);
        return file;
    }
    if (!(flags & O_CREAT) && is_refused(is_before_all(path) ? HOLD : OPEN)) return (int)allowed(0);
    return (int)syscall(SYS_openat, folder, path, flags, mode);
}

int openat(int folder, const char *path, int flags, ...) {
    va_list more;
    va_start(more, flags);
    int file = open_at(folder, path, flags, more);
    va_end(more);
    return file;
}

int open(const char *path, int flags, ...) {
    va_list more;
    va_start(more, flags);
    int file = open_at(AT_FDCWD, path, flags, more);
    va_end(more);
    return file;
}

extern int open64(const char *, int, ...) __attribute__((alias("open")));
extern int openat64(int, const char *, int, ...) __attribute__((alias("openat")));

static int sync_by(long call, int file) {
    long seconds = strtol(how, NULL, 10);
    if (is_refused(SYNC)) {
        if (seconds == 0) return (int)allowed(0);
        sleep_for(1000 * seconds);
    }
    return (int)syscall(call, file);
}

int fsync(int file) { return sync_by(SYS_fsync, file); }
int fdatasync(int file) { return sync_by(SYS_fdatasync, file); }
