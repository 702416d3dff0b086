/* A library to preload into the built program (LD_PRELOAD), which makes allocations, starts of threads, reads and writes fail.
   tests/lib/refusals.py builds it. The environment says what fails:

       REFUSE_GROWTH=N   the Nth growth of memory, counted from the start of the program
       REFUSE_FROM=N     each growth from the Nth on
       REFUSE_START=N    the Nth start of a thread
       REFUSE_READ=K     the Kth read, of standard input or of the file that is named instead
       REFUSE_WRITE=K    the Kth write to standard output
       REFUSE_ERROR=E    how that read or write fails: by this errno (EIO by default), or, for 0, by moving no byte
       REFUSE_PIECE=B    each read and each write to standard output moves B bytes at most
       REFUSE_LOG=FD     one letter for each event goes to this descriptor: g a growth, n a growth within the start of a thread,
                         s the start of a thread, r a read, w a write to standard output; in upper case if it was refused

   Without any of these, nothing fails. It uses the C library's own allocator and plain system calls. */
#define _GNU_SOURCE
#include <dlfcn.h>
#include <errno.h>
#include <pthread.h>
#include <stdatomic.h>
#include <stddef.h>
#include <stdlib.h>
#include <sys/syscall.h>
#include <sys/uio.h>
#include <unistd.h>

extern void *__libc_malloc(size_t);
extern void *__libc_calloc(size_t, size_t);
extern void *__libc_realloc(void *, size_t);
extern void *__libc_memalign(size_t, size_t);

static long refused_growth, refused_from, refused_start, refused_read, refused_write, piece;
static long refused_by = EIO, log_to = -1;
static atomic_long growths, starts, reads, writes;
static atomic_bool is_ready;
static _Thread_local int is_starting;
static int (*start_of_libc)(pthread_t *, const pthread_attr_t *, void *(*)(void *), void *);

static void number(const char *name, long *to) {
    const char *text = getenv(name);
    if (text)
        *to = strtol(text, NULL, 10);
}

__attribute__((constructor)) static void begin(void) {
    number("REFUSE_GROWTH", &refused_growth);
    number("REFUSE_FROM", &refused_from);
    number("REFUSE_START", &refused_start);
    number("REFUSE_READ", &refused_read);
    number("REFUSE_WRITE", &refused_write);
    number("REFUSE_ERROR", &refused_by);
    number("REFUSE_PIECE", &piece);
    number("REFUSE_LOG", &log_to);
    start_of_libc = (int (*)(pthread_t *, const pthread_attr_t *, void *(*)(void *), void *))dlsym(RTLD_NEXT, "pthread_create");
    is_ready = 1;
}

static void tell(char letter, int is_refused) {
    if (log_to >= 0) {
        char said = letter;
        if (is_refused)
            said = (char)((unsigned)letter & ~0x20U); /* a capital */
        syscall(SYS_write, log_to, &said, 1);
    }
}

/* ---- Memory */

static int is_refused_growth(void) {
    if (!is_ready)
        return 0;
    long at = ++growths;
    int refused = at == refused_growth || (refused_from > 0 && at >= refused_from);
    tell(is_starting ? 'n' : 'g', refused);
    if (refused)
        errno = ENOMEM;
    return refused;
}

void *malloc(size_t size) {
    return is_refused_growth() ? NULL : __libc_malloc(size);
}

void *calloc(size_t count, size_t size) {
    return is_refused_growth() ? NULL : __libc_calloc(count, size);
}

void *realloc(void *old, size_t size) {
    return is_refused_growth() ? NULL : __libc_realloc(old, size);
}

void *memalign(size_t align, size_t size) {
    return is_refused_growth() ? NULL : __libc_memalign(align, size);
}

void *aligned_alloc(size_t align, size_t size) {
    return memalign(align, size);
}

int posix_memalign(void **to, size_t align, size_t size) {
    void *made = memalign(align, size);
    if (!made)
        return ENOMEM;
    *to = made;
    return 0;
}

/* ---- Threads */

int pthread_create(pthread_t *thread, const pthread_attr_t *attributes, void *(*body)(void *), void *argument) {
    int refused = ++starts == refused_start;
    tell('s', refused);
    if (refused)
        return EAGAIN;
    is_starting = 1;
    int result = start_of_libc(thread, attributes, body, argument);
    is_starting = 0;
    return result;
}

/* ---- Streams */

/* Whether this call of a stream is refused: then it answers `*result`. */
static int is_refused_call(char letter, atomic_long *calls, long refused, ssize_t *result) {
    int is_refused = ++*calls == refused;
    tell(letter, is_refused);
    *result = refused_by ? -1 : 0;
    if (is_refused && refused_by)
        errno = (int)refused_by;
    return is_refused;
}

static size_t at_most(size_t count) {
    return piece > 0 && count > (size_t)piece ? (size_t)piece : count;
}

ssize_t read(int from, void *to, size_t count) {
    ssize_t result;
    if (is_refused_call('r', &reads, refused_read, &result))
        return result;
    return syscall(SYS_read, from, to, at_most(count));
}

ssize_t write(int to, const void *from, size_t count) {
    ssize_t result;
    if (to != 1)
        return syscall(SYS_write, to, from, count);
    if (is_refused_call('w', &writes, refused_write, &result))
        return result;
    return syscall(SYS_write, to, from, at_most(count));
}

ssize_t __write(int to, const void *from, size_t count) {
    return write(to, from, count);
}

/* The first part that is not empty, as one write of a part may. */
ssize_t writev(int to, const struct iovec *parts, int count) {
    for (int i = 0; i < count; i++)
        if (parts[i].iov_len > 0)
            return write(to, parts[i].iov_base, parts[i].iov_len);
    return write(to, NULL, 0);
}

ssize_t readv(int from, const struct iovec *parts, int count) {
    for (int i = 0; i < count; i++)
        if (parts[i].iov_len > 0)
            return read(from, parts[i].iov_base, parts[i].iov_len);
    return read(from, NULL, 0);
}
