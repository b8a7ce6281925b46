/* Refuses one call of the C library, by the words of the environment:
       REFUSE=alloc N    the Nth growth (malloc, realloc, calloc, posix_memalign) finds no memory
       REFUSE=io N       the Nth read, write, sync, rename or change of permissions fails
       REFUSE=kill N     the process is killed before the Nth of these
       REFUSE=part N     the process is killed in the midst of the Nth, where that is a write of several bytes, else before it
       REFUSE=short N    the Nth read or write of several bytes moves one
       REFUSE=interrupt  every read is interrupted
   The file REFUSE_TO is filled with four counts of 8 bytes, while the program runs: growths, these calls, those of read
   alone, and reads and writes of several bytes. A growth of the C library's own, before `main`, counts too. It is loaded before the C
   library, by the tools beside it. */
#define _GNU_SOURCE
#include <dlfcn.h>
#include <errno.h>
#include <fcntl.h>
#include <signal.h>
#include <stdlib.h>
#include <string.h>
#include <sys/mman.h>
#include <sys/stat.h>
#include <unistd.h>

enum { NOTHING, ALLOC, IO, SHORT, INTERRUPT, KILL, PART };

struct counts {
    unsigned long growths, calls, reads, several;
};

static struct counts own;
static struct counts *seen = &own;
static int kind = NOTHING;
static unsigned long which;

extern void *__libc_malloc(size_t);
extern void *__libc_realloc(void *, size_t);
extern void *__libc_calloc(size_t, size_t);
extern void *__libc_memalign(size_t, size_t);
extern ssize_t __read(int, void *, size_t);
extern ssize_t __write(int, const void *, size_t);

__attribute__((constructor)) static void begin(void)
{
    const char *words = getenv("REFUSE"), *file = getenv("REFUSE_TO");
    int open_file = file ? open(file, O_RDWR) : -1;
    if (open_file >= 0) {
        void *page = mmap(0, sizeof *seen, PROT_READ | PROT_WRITE, MAP_SHARED, open_file, 0);
        if (page != MAP_FAILED)
            seen = page;
        close(open_file);
    }
    seen->growths = seen->calls = seen->reads = seen->several = 0;
    if (!words)
        return;
    kind = *words == 'a' ? ALLOC : *words == 'i' && words[1] == 'o' ? IO : *words == 's' ? SHORT : *words == 'k' ? KILL : *words == 'p' ? PART : INTERRUPT;
    words = strchr(words, ' ');
    which = words ? strtoul(words, 0, 10) : 0;
}

/* (several threads may count at once) */
static unsigned long one_more(unsigned long *count)
{
    return __atomic_add_fetch(count, 1, __ATOMIC_SEQ_CST);
}

static int no_memory(void)
{
    if (one_more(&seen->growths) == which && kind == ALLOC) {
        errno = ENOMEM;
        return 1;
    }
    return 0;
}

void *malloc(size_t size)
{
    return no_memory() ? 0 : __libc_malloc(size);
}

void *calloc(size_t count, size_t size)
{
    return no_memory() ? 0 : __libc_calloc(count, size);
}

void *realloc(void *old, size_t size)
{
    return no_memory() ? 0 : __libc_realloc(old, size);
}

int posix_memalign(void **made, size_t align, size_t size)
{
    if (no_memory())
        return ENOMEM;
    *made = __libc_memalign(align, size);
    return *made ? 0 : ENOMEM;
}

void *aligned_alloc(size_t align, size_t size)
{
    return no_memory() ? 0 : __libc_memalign(align, size);
}

static int fails(void)
{
    if (one_more(&seen->calls) != which)
        return 0;
    if (kind == KILL || kind == PART)
        kill(getpid(), SIGKILL);
    if (kind == IO) {
        errno = EIO;
        return 1;
    }
    return 0;
}

static size_t moved(size_t size)
{
    if (size > 1 && one_more(&seen->several) == which && kind == SHORT)
        return 1;
    return size;
}

ssize_t read(int file, void *bytes, size_t size)
{
    one_more(&seen->reads);
    if (kind == INTERRUPT) {
        errno = EINTR;
        return -1;
    }
    return fails() ? -1 : __read(file, bytes, moved(size));
}

ssize_t write(int file, const void *bytes, size_t size)
{
    if (kind == PART && size > 1 && seen->calls + 1 == which)
        __write(file, bytes, size / 2);
    return fails() ? -1 : __write(file, bytes, moved(size));
}

int fsync(int file)
{
    int (*real)(int) = (int (*)(int))dlsym(RTLD_NEXT, "fsync");
    return fails() ? -1 : real(file);
}

int fdatasync(int file)
{
    int (*real)(int) = (int (*)(int))dlsym(RTLD_NEXT, "fdatasync");
    return fails() ? -1 : real(file);
}

int fchmod(int file, mode_t mode)
{
    int (*real)(int, mode_t) = (int (*)(int, mode_t))dlsym(RTLD_NEXT, "fchmod");
    return fails() ? -1 : real(file, mode);
}

int rename(const char *from, const char *to)
{
    int (*real)(const char *, const char *) = (int (*)(const char *, const char *))dlsym(RTLD_NEXT, "rename");
    return fails() ? -1 : real(from, to);
}
