// Loaded before the C library, it has devices and memory fail as the environment says:
//
//   FAIL=N          the Nth call of `open` or `read` fails, with the error ERRNO, or else EIO
//   GRAIN=N         a read or a write moves at most N bytes; where there is VARY=SEED at most as many as are drawn each time, 1 to N
//   ROOM=N          the output takes at most N bytes; where NOTHING is set it tells no error then, and takes nothing
//   REFUSE=N        the Nth request for memory is refused, and makes the file `refused`; where REST is set, each later one too
#define _GNU_SOURCE
#include <errno.h>
#include <fcntl.h>
#include <stdatomic.h>
#include <stdlib.h>
#include <sys/syscall.h>
#include <unistd.h>

extern void *__libc_malloc(size_t);
extern void *__libc_calloc(size_t, size_t);
extern void *__libc_realloc(void *, size_t);
extern void *__libc_memalign(size_t, size_t);
extern void __libc_free(void *);
// In `threads.c`: whether a call for memory begins or ends.
extern void asks_memory(int);

static atomic_long calls, asked;
static long failing, refused;
static int rest, nothing;
static unsigned long drawn;
static size_t grain = (size_t)-1, room = (size_t)-1;

static long number_of(const char *name, long otherwise) {
    const char *text = getenv(name);
    return text ? atol(text) : otherwise;
}

__attribute__((constructor)) static void begin(void) {
    failing = number_of("FAIL", -1);
    grain = (size_t)number_of("GRAIN", -1);
    room = (size_t)number_of("ROOM", -1);
    refused = number_of("REFUSE", 0);
    rest = getenv("REST") != NULL;
    nothing = getenv("NOTHING") != NULL;
    drawn = (unsigned long)number_of("VARY", 0);
    calls = asked = 0;
}

static int fails(void) {
    if (++calls != failing)
        return 0;
    errno = (int)number_of("ERRNO", EIO);
    return 1;
}

static int open_at(int folder, const char *path, int how) {
    return fails() ? -1 : (int)syscall(SYS_openat, folder, path, how, 0);
}

// How many of so many bytes are moved.
static size_t moved(size_t size) {
    size_t most = grain;
    if (drawn != 0) {
        drawn = drawn * 6364136223846793005UL + 1442695040888963407UL;
        most = 1 + (drawn >> 33) % grain;
    }
    return size < most ? size : most;
}

// No program makes a file, so the mode that one would have is left out.
int open(const char *path, int how, ...) { return open_at(AT_FDCWD, path, how); }
int open64(const char *path, int how, ...) { return open_at(AT_FDCWD, path, how); }
int openat(int folder, const char *path, int how, ...) { return open_at(folder, path, how); }
int openat64(int folder, const char *path, int how, ...) { return open_at(folder, path, how); }

ssize_t read(int file, void *bytes, size_t size) {
    return fails() ? -1 : syscall(SYS_read, file, bytes, moved(size));
}

ssize_t write(int file, const void *bytes, size_t size) {
    size = moved(size);
    if (file == 1 && room != (size_t)-1) {
        if (room == 0) {
            errno = ENOSPC;
            return nothing ? 0 : -1;
        }
        if (size > room)
            size = room;
        room -= size;
    }
    return syscall(SYS_write, file, bytes, size);
}

static int is_refused(void) {
    long number = ++asked;
    if (refused == 0 || number < refused || (number > refused && !rest))
        return 0;
    if (number == refused)
        close((int)syscall(SYS_openat, AT_FDCWD, "refused", O_CREAT | O_WRONLY, 0600));
    errno = ENOMEM;
    return 1;
}

// What a call for memory found.
static void *found(void *memory) {
    asks_memory(0);
    return memory;
}

void free(void *memory) {
    asks_memory(1);
    __libc_free(memory);
    asks_memory(0);
}

void *malloc(size_t size) {
    if (is_refused())
        return NULL;
    asks_memory(1);
    return found(__libc_malloc(size));
}

void *calloc(size_t count, size_t size) { return is_refused() ? NULL : __libc_calloc(count, size); }
void *realloc(void *old, size_t size) {
    if (is_refused())
        return NULL;
    asks_memory(1);
    return found(__libc_realloc(old, size));
}

void *memalign(size_t align, size_t size) { return is_refused() ? NULL : __libc_memalign(align, size); }
void *aligned_alloc(size_t align, size_t size) { return is_refused() ? NULL : __libc_memalign(align, size); }
int posix_memalign(void **out, size_t align, size_t size) {
    void *found = is_refused() ? NULL : __libc_memalign(align, size);
    if (found == NULL)
        return ENOMEM;
    *out = found;
    return 0;
}
