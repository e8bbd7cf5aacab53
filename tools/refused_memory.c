/* Loaded before a program's C library, it refuses memory and threads to the program: the allocations that are numbered from
   REFUSE_FIRST to REFUSE_LAST, and the threads from REFUSE_THREADS_FIRST to REFUSE_THREADS_LAST, all counted from 1. Where it
   refuses something it makes the file that REFUSE_TELLS names. tools/refused_memory builds and loads it; it wants glibc. */
#define _GNU_SOURCE
#include <dlfcn.h>
#include <errno.h>
#include <fcntl.h>
#include <pthread.h>
#include <stdatomic.h>
#include <stdlib.h>
#include <unistd.h>

extern void *__libc_malloc(size_t size);
extern void *__libc_calloc(size_t count, size_t size);
extern void *__libc_realloc(void *old, size_t size);
extern void *__libc_memalign(size_t alignment, size_t size);

typedef int make_thread(pthread_t *, const pthread_attr_t *, void *(*)(void *), void *);

/* What is refused: none, as long as the environment isn't read. */
struct row {
    atomic_ulong count;
    unsigned long first, last;
};

static struct row allocations = {0, 1, 0}, threads = {0, 1, 0};
static const char *tells;
static make_thread *next_make_thread;

static unsigned long number_of(const char *name, unsigned long other)
{
    const char *text = getenv(name);
    return text ? strtoul(text, NULL, 10) : other;
}

__attribute__((constructor)) static void begin(void)
{
    next_make_thread = (make_thread *)dlsym(RTLD_NEXT, "pthread_create");
    tells = getenv("REFUSE_TELLS");
    threads.last = number_of("REFUSE_THREADS_LAST", 0);
    threads.first = number_of("REFUSE_THREADS_FIRST", 1);
    allocations.last = number_of("REFUSE_LAST", 0);
    allocations.first = number_of("REFUSE_FIRST", 1);
    atomic_store(&threads.count, 0);
    atomic_store(&allocations.count, 0);
}

static int is_refused(struct row *row)
{
    unsigned long number = atomic_fetch_add(&row->count, 1) + 1;
    if (number < row->first || row->last < number)
        return 0;
    int file = tells ? open(tells, O_WRONLY | O_CREAT, 0600) : -1;
    if (file >= 0)
        close(file);
    return 1;
}

static void *none(void)
{
    errno = ENOMEM;
    return NULL;
}

void *malloc(size_t size)
{
    return is_refused(&allocations) ? none() : __libc_malloc(size);
}

void *calloc(size_t count, size_t size)
{
    return is_refused(&allocations) ? none() : __libc_calloc(count, size);
}

void *realloc(void *old, size_t size)
{
    return is_refused(&allocations) ? none() : __libc_realloc(old, size);
}

void *memalign(size_t alignment, size_t size)
{
    return is_refused(&allocations) ? none() : __libc_memalign(alignment, size);
}

void *aligned_alloc(size_t alignment, size_t size)
{
    return memalign(alignment, size);
}

int posix_memalign(void **to, size_t alignment, size_t size)
{
    void *made = memalign(alignment, size);
    if (!made)
        return ENOMEM;
    *to = made;
    return 0;
}

int pthread_create(pthread_t *thread, const pthread_attr_t *attributes, void *(*work)(void *), void *given)
{
    return is_refused(&threads) ? EAGAIN : next_make_thread(thread, attributes, work, given);
}
