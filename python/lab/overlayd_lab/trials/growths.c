/* Refuses growths of a program that it is loaded into, for trials/growths.py.

   Counts the calls of malloc, calloc, realloc, aligned_alloc, posix_memalign, mmap and pthread_create. The call with
   the number REFUSE_FIRST is refused, and then each REFUSE_EACH-th behind it (0: no other). What the C library asks of
   the system by itself, as the stack of a thread, is not counted. The first 8 bytes of the file REFUSE_COUNTS
   are how many calls there were, the next 8 how many were refused. */

/* What the C library has, as it is declared in its headers: those need not be there. */
typedef unsigned long size_t;

enum { EAGAIN = 11, ENOMEM = 12, O_RDWR = 2, O_CREAT = 0100, SYS_mmap = 9 };

extern int *__errno_location(void);
extern char *getenv(const char *);
extern unsigned long strtoul(const char *, char **, int);
extern int open(const char *, int, ...);
extern int ftruncate(int, long);
extern int close(int);
extern long syscall(long, ...);
extern void *dlsym(void *, const char *);
extern void *__libc_malloc(size_t);
extern void *__libc_calloc(size_t, size_t);
extern void *__libc_realloc(void *, size_t);
extern void *__libc_memalign(size_t, size_t);

typedef int starting(unsigned long *, const void *, void *(*)(void *), void *);

struct counts {
    unsigned long calls, refused;
};

static struct counts none;
static struct counts *counts = &none;
static unsigned long first, each;
static int is_on;

static unsigned long number_of(const char *name)
{
    const char *text = getenv(name);
    return text ? strtoul(text, 0, 10) : 0;
}

__attribute__((constructor)) static void begin(void)
{
    const char *path = getenv("REFUSE_COUNTS");
    int file = path ? open(path, O_RDWR | O_CREAT, 0600) : -1;
    if (file >= 0 && ftruncate(file, sizeof none) == 0) {
        long place = syscall(SYS_mmap, 0, sizeof none, 3, 1, file, 0); /* to read and write, shared */
        if (place != -1)
            counts = (struct counts *)place;
        close(file);
    }
    first = number_of("REFUSE_FIRST");
    each = number_of("REFUSE_EACH");
    is_on = 1;
}

/* Whether this growth is to be refused. */
static int refuses(void)
{
    if (!is_on)
        return 0;
    unsigned long number = __atomic_add_fetch(&counts->calls, 1, __ATOMIC_SEQ_CST);
    if (first == 0 || number < first)
        return 0;
    if (number != first && (each == 0 || (number - first) % each != 0))
        return 0;
    __atomic_add_fetch(&counts->refused, 1, __ATOMIC_SEQ_CST);
    *__errno_location() = ENOMEM;
    return 1;
}

void *malloc(size_t size)
{
    return refuses() ? 0 : __libc_malloc(size);
}

void *calloc(size_t count, size_t size)
{
    return refuses() ? 0 : __libc_calloc(count, size);
}

void *realloc(void *old, size_t size)
{
    return refuses() ? 0 : __libc_realloc(old, size);
}

void *aligned_alloc(size_t alignment, size_t size)
{
    return refuses() ? 0 : __libc_memalign(alignment, size);
}

int posix_memalign(void **place, size_t alignment, size_t size)
{
    if (refuses())
        return ENOMEM;
    *place = __libc_memalign(alignment, size);
    return *place ? 0 : ENOMEM;
}

void *mmap(void *at, size_t size, int allowed, int kind, int file, long from)
{
    return refuses() ? (void *)-1 : (void *)syscall(SYS_mmap, at, size, allowed, kind, file, from);
}

int pthread_create(unsigned long *thread, const void *how, void *(*run)(void *), void *given)
{
    static starting *next;
    if (refuses())
        return EAGAIN;
    if (!next)
        next = (starting *)dlsym((void *)-1, /* in what is loaded behind this */ "pthread_create");
    return next(thread, how, run, given);
}
