/* Preloaded beside a program: one of its calls fails, by its number, once it is armed (failing.py arms it).
   The file that CONTROL names is shared with whoever arms it. Which calls count is its `kind`: malloc and realloc; recv; send; or pread, pwrite, ftruncate, fsync and
   fdatasync. Whose calls count is its `scope`: those of threads that began since the arming, and for memory those of the first thread too, which takes the
   connections, so that other connections, the agents and the ticker are left alone; those of the first thread; those of all others; or all. With `rest` each call
   behind the one that fails does too. With `most`, a recv or send that counts moves so many bytes at most. */
#define _GNU_SOURCE
#include <dlfcn.h>
#include <errno.h>
#include <fcntl.h>
#include <stdint.h>
#include <stdlib.h>
#include <sys/mman.h>
#include <sys/socket.h>
#include <sys/syscall.h>
#include <unistd.h>

enum { NOTHING, MEMORY, READS, WRITES, FILES };
enum { NEW, FIRST, OTHERS, ALL };

struct control {
    /* Raised by each arming. */
    uint64_t arming;
    uint64_t kind;
    /* The call that fails, counted from 1; none with 0. */
    uint64_t number;
    uint64_t rest;
    uint64_t scope;
    uint64_t most;
    /* How many calls were counted since the arming, and whether one failed. */
    uint64_t count;
    uint64_t failed;
};

static struct control nobody;
static struct control *control = &nobody;

/* The arming at which this thread made its first call here, plus one. */
static __thread uint64_t seen __attribute__((tls_model("initial-exec")));

static uint64_t load(const uint64_t *place) { return __atomic_load_n(place, __ATOMIC_SEQ_CST); }

__attribute__((constructor)) static void attach(void) {
    const char *file = getenv("CONTROL");
    int shared = file ? open(file, O_RDWR | O_CLOEXEC) : -1;
    void *place;
    if (shared < 0) return;
    place = mmap(NULL, sizeof *control, PROT_READ | PROT_WRITE, MAP_SHARED, shared, 0);
    if (place != MAP_FAILED) control = place;
    close(shared);
}

static int is_first_thread(void) { return syscall(SYS_gettid) == getpid(); }

static int counts(uint64_t kind) {
    uint64_t arming = load(&control->arming);
    if (!seen) seen = arming + 1;
    if (load(&control->kind) != kind) return 0;
    switch (load(&control->scope)) {
        case NEW: return seen == arming + 1 || (kind == MEMORY && is_first_thread());
        case FIRST: return is_first_thread();
        case OTHERS: return !is_first_thread();
        default: return 1;
    }
}

static int fails(uint64_t kind) {
    uint64_t count, number;
    if (!counts(kind)) return 0;
    count = __atomic_add_fetch(&control->count, 1, __ATOMIC_SEQ_CST);
    number = load(&control->number);
    if (!number || count < number || (count > number && !load(&control->rest))) return 0;
    __atomic_store_n(&control->failed, 1, __ATOMIC_SEQ_CST);
    return 1;
}

/* How many bytes of so many may be moved. */
static size_t cut(uint64_t kind, size_t size) {
    uint64_t most = load(&control->most);
    return most && most < size && counts(kind) ? most : size;
}

void *malloc(size_t size) {
    static void *(*next)(size_t);
    if (!next) next = dlsym(RTLD_NEXT, "malloc");
    if (!fails(MEMORY)) return next(size);
    errno = ENOMEM;
    return NULL;
}

void *realloc(void *place, size_t size) {
    static void *(*next)(void *, size_t);
    if (!next) next = dlsym(RTLD_NEXT, "realloc");
    if (!fails(MEMORY)) return next(place, size);
    errno = ENOMEM;
    return NULL;
}

ssize_t recv(int socket, void *bytes, size_t size, int flags) {
    static ssize_t (*next)(int, void *, size_t, int);
    if (!next) next = dlsym(RTLD_NEXT, "recv");
    if (!fails(READS)) return next(socket, bytes, cut(READS, size), flags);
    errno = ECONNRESET;
    return -1;
}

ssize_t send(int socket, const void *bytes, size_t size, int flags) {
    static ssize_t (*next)(int, const void *, size_t, int);
    if (!next) next = dlsym(RTLD_NEXT, "send");
    if (!fails(WRITES)) return next(socket, bytes, cut(WRITES, size), flags);
    errno = EPIPE;
    return -1;
}

/* A call on a file that fails, as a device does. */
static int fails_on_file(void) {
    if (!fails(FILES)) return 0;
    errno = EIO;
    return 1;
}

ssize_t pread(int file, void *bytes, size_t size, off_t at) {
    static ssize_t (*next)(int, void *, size_t, off_t);
    if (!next) next = dlsym(RTLD_NEXT, "pread");
    return fails_on_file() ? -1 : next(file, bytes, size, at);
}

ssize_t pwrite(int file, const void *bytes, size_t size, off_t at) {
    static ssize_t (*next)(int, const void *, size_t, off_t);
    if (!next) next = dlsym(RTLD_NEXT, "pwrite");
    return fails_on_file() ? -1 : next(file, bytes, size, at);
}

int ftruncate(int file, off_t size) {
    static int (*next)(int, off_t);
    if (!next) next = dlsym(RTLD_NEXT, "ftruncate");
    return fails_on_file() ? -1 : next(file, size);
}

int fsync(int file) {
    static int (*next)(int);
    if (!next) next = dlsym(RTLD_NEXT, "fsync");
    return fails_on_file() ? -1 : next(file);
}

int fdatasync(int file) {
    static int (*next)(int);
    if (!next) next = dlsym(RTLD_NEXT, "fdatasync");
    return fails_on_file() ? -1 : next(file);
}
