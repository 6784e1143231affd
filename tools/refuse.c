/* A library to preload: calls of the host by a program fail, by their number. tools/refuse_memory and tools/refuse_host build it
   into a folder of their own and say by the environment what fails:

     REFUSE_CALLS   the kinds of call that are counted, parted by commas, each with what it answers behind a colon: the name of an
                    error, `short` (it goes no further than one byte, or seven of a socket), or nothing for memory. As `memory`,
                    `read:EIO`, `write:short`, `recv:ECONNRESET`
     REFUSE_AT      the number of the call that fails, from 1; 0 for none
     REFUSE_ON      if it is set, each later call fails too
     REFUSE_LISTEN  if it is set, counting begins at the first listen()
     REFUSE_COUNT   the file that two numbers are written to at the end of the program: of the calls, and of the blocks of memory
                    that weren't freed

   A read or a write of a file descriptor is counted as `read` or `write` (standard error isn't), one of a socket as `recv` or
   `send`. */
#define _GNU_SOURCE
#include <dlfcn.h>
#include <errno.h>
#include <fcntl.h>
#include <pthread.h>
#include <stdarg.h>
#include <stdatomic.h>
#include <stdlib.h>
#include <string.h>
#include <sys/epoll.h>
#include <sys/socket.h>
#include <sys/syscall.h>
#include <unistd.h>

enum kind { MEMORY, READ, WRITE, OPEN, RECV, SEND, ACCEPT, THREAD, WAIT, WATCH, KINDS };

static const char *const NAMES[KINDS] = {"memory", "read", "write",  "open", "recv",
                                         "send",   "accept", "thread", "wait", "watch"};

enum { SHORT = -1 };

/* Of a socket: a handshake that comes in more than 64 packets of few bytes is refused as an attack. */
enum { SHORT_READ = 1, SHORT_PACKET = 7 };

static const struct { const char *name; int number; } ERRORS[] = {
    {"EIO", EIO}, {"EINTR", EINTR}, {"EPIPE", EPIPE}, {"ENOSPC", ENOSPC}, {"EAGAIN", EAGAIN}, {"EMFILE", EMFILE},
    {"ENFILE", ENFILE}, {"EACCES", EACCES}, {"ENOENT", ENOENT}, {"ENOMEM", ENOMEM}, {"ECONNRESET", ECONNRESET},
    {"ECONNABORTED", ECONNABORTED}, {"short", SHORT}, {"", ENOMEM},
};

extern void *__libc_malloc(size_t);
extern void *__libc_calloc(size_t, size_t);
extern void *__libc_realloc(void *, size_t);
extern void __libc_free(void *);

static int answers[KINDS]; /* 0: not counted */
static long at;
static int on;
static atomic_int counting;
static atomic_long calls;
static atomic_long blocks;

static void read_kinds(const char *text) {
    while (*text) {
        size_t length = strcspn(text, ",");
        size_t name = strcspn(text, ":,");
        for (int kind = 0; kind < KINDS; kind++) {
            if (strlen(NAMES[kind]) != name || strncmp(NAMES[kind], text, name)) continue;
            const char *how = text + (name < length ? name + 1 : length);
            size_t rest = (size_t)(text + length - how);
            for (size_t i = 0; i < sizeof ERRORS / sizeof *ERRORS; i++)
                if (strlen(ERRORS[i].name) == rest && !strncmp(ERRORS[i].name, how, rest)) answers[kind] = ERRORS[i].number;
        }
        text += length + (text[length] == ',');
    }
}

__attribute__((constructor)) static void begin(void) {
    const char *kinds = getenv("REFUSE_CALLS"), *number = getenv("REFUSE_AT");
    if (!kinds) return;
    read_kinds(kinds);
    at = number ? atol(number) : 0;
    on = getenv("REFUSE_ON") != NULL;
    counting = getenv("REFUSE_LISTEN") == NULL;
}

/* Counts a call, and says what it answers: 0 for what the host answers. */
static int refused(enum kind kind) {
    if (!answers[kind] || !atomic_load(&counting)) return 0;
    long number = atomic_fetch_add(&calls, 1) + 1;
    return at && (on ? number >= at : number == at) ? answers[kind] : 0;
}

static void write_number(long to, long number, char behind) {
    char digits[24];
    int place = sizeof digits - 1;
    digits[place] = behind;
    do digits[--place] = (char)('0' + number % 10), number /= 10; while (number);
    syscall(SYS_write, to, digits + place, sizeof digits - (size_t)place);
}

/* By calls of the system, so that it needs no memory. */
static void tell(void) {
    const char *file = getenv("REFUSE_COUNT");
    if (!file) return;
    long to = syscall(SYS_open, file, O_WRONLY | O_CREAT | O_TRUNC, 0600);
    if (to < 0) return;
    write_number(to, atomic_load(&calls), ' ');
    write_number(to, atomic_load(&blocks), '\n');
    syscall(SYS_close, to);
}

__attribute__((destructor)) static void end(void) { tell(); }

void _exit(int status) {
    tell();
    syscall(SYS_exit_group, status);
    __builtin_unreachable();
}

static void *taken(void *block) {
    if (block) atomic_fetch_add(&blocks, 1);
    return block;
}

void *malloc(size_t size) {
    if (refused(MEMORY)) return errno = ENOMEM, NULL;
    return taken(__libc_malloc(size));
}

void *calloc(size_t count, size_t size) {
    if (refused(MEMORY)) return errno = ENOMEM, NULL;
    return taken(__libc_calloc(count, size));
}

void *realloc(void *old, size_t size) {
    if (refused(MEMORY)) return errno = ENOMEM, NULL;
    return old ? __libc_realloc(old, size) : taken(__libc_realloc(old, size));
}

void free(void *block) {
    if (block) atomic_fetch_sub(&blocks, 1);
    __libc_free(block);
}

#define NEXT(name) ((__typeof__(&name))dlsym(RTLD_NEXT, #name))

ssize_t read(int file, void *to, size_t size) {
    int how = refused(READ);
    if (how == SHORT) size = size < SHORT_READ ? size : SHORT_READ;
    else if (how) return errno = how, -1;
    return syscall(SYS_read, file, to, size);
}

ssize_t write(int file, const void *from, size_t size) {
    int how = file == 2 ? 0 : refused(WRITE);
    if (how == SHORT) size = size < SHORT_READ ? size : SHORT_READ;
    else if (how) return errno = how, -1;
    return syscall(SYS_write, file, from, size);
}

int open(const char *name, int flags, ...) {
    va_list rest;
    va_start(rest, flags);
    int mode = flags & O_CREAT ? va_arg(rest, int) : 0;
    va_end(rest);
    int how = refused(OPEN);
    if (how) return errno = how, -1;
    return (int)syscall(SYS_openat, AT_FDCWD, name, flags, mode);
}

ssize_t recv(int socket, void *to, size_t size, int flags) {
    int how = refused(RECV);
    if (how == SHORT) size = size < SHORT_PACKET ? size : SHORT_PACKET;
    else if (how) return errno = how, -1;
    return syscall(SYS_recvfrom, socket, to, size, flags, NULL, NULL);
}

ssize_t send(int socket, const void *from, size_t size, int flags) {
    int how = refused(SEND);
    if (how == SHORT) size = size < SHORT_PACKET ? size : SHORT_PACKET;
    else if (how) return errno = how, -1;
    return syscall(SYS_sendto, socket, from, size, flags, NULL, 0);
}

int accept4(int socket, struct sockaddr *who, socklen_t *size, int flags) {
    int how = refused(ACCEPT);
    if (how) return errno = how, -1;
    return (int)syscall(SYS_accept4, socket, who, size, flags);
}

int epoll_wait(int poll, struct epoll_event *events, int most, int time) {
    int how = refused(WAIT);
    if (how) return errno = how, -1;
    return NEXT(epoll_wait)(poll, events, most, time);
}

int epoll_create1(int flags) {
    int how = refused(WATCH);
    if (how) return errno = how, -1;
    return (int)syscall(SYS_epoll_create1, flags);
}

int listen(int socket, int most) {
    int answer = (int)syscall(SYS_listen, socket, most);
    atomic_store(&counting, 1);
    return answer;
}

int pthread_create(pthread_t *thread, const pthread_attr_t *how_made, void *(*job)(void *), void *with) {
    int how = refused(THREAD);
    if (how) return how;
    return NEXT(pthread_create)(thread, how_made, job, with);
}
