/* Makes calls of a store's device fail in a program that it is loaded into, for trials/faults.py.

   Counts the calls of open, fstat, statx, pread, pwrite, fdatasync, fsync and ftruncate of the file FAIL_STORE and of
   its folder FAIL_FOLDER. The call with the number FAIL_FIRST fails, and all behind it where FAIL_REST is 1. How it
   fails is FAIL_KIND: 0 with EIO and nothing done; 1 with EIO, a write having written half; 2 a write writes half and
   tells so, another call is interrupted (EINTR); 3 with ENOSPC. A sync that fails loses what was written to the store
   since the last one that did not: all of it, or with kind 1 the second half of each write; with kind 2 nothing, as it
   is asked for again. A sync of the folder that fails, but with kind 2, loses the store, where it was made in this run.
   A program that opens a gate over writes which are not synced, or writes a new store before its folder is, is ended by
   abort. FAIL_LEAVE makes such a program of a right one: with 1 no sync of the store is made, with 2 none of the folder.
   The first 8 bytes of the file FAIL_COUNTS are how many calls there were, the next 8 how many failed. */

/* What the C library and the system have, as it is declared in their headers: those need not be there. */
typedef unsigned long size_t;
struct stat;
struct statx;

enum { EINTR = 4, EIO = 5, ENOSPC = 28, O_RDWR = 2, O_CREAT = 0100, AT_FDCWD = -100, SEEK_END = 2 };
enum {
    SYS_close = 3, SYS_fstat = 5, SYS_lseek = 8, SYS_mmap = 9, SYS_pread64 = 17, SYS_pwrite64 = 18, SYS_access = 21,
    SYS_fsync = 74, SYS_fdatasync = 75, SYS_ftruncate = 77, SYS_unlink = 87, SYS_openat = 257, SYS_statx = 332
};

extern int *__errno_location(void);
extern char *getenv(const char *);
extern unsigned long strtoul(const char *, char **, int);
extern int strcmp(const char *, const char *);
extern long syscall(long, ...);
extern void *calloc(size_t, size_t);
extern void free(void *);
extern void abort(void);

struct counts {
    unsigned long calls, failed;
};

static struct counts none;
static struct counts *counts = &none;
static unsigned long first, rest, kind, left_out;

/* Which files are watched: as the store, or as its folder. */
enum { STORE = 1, FOLDER = 2 };
static char watched[1024];
static int is_made; /* whether the store was made in this run, and its folder not synced since */

/* A write to the store that is not synced yet: where it is, how many bytes it has and how long the file was before,
   then the bytes that stood there, and zeros where the file had none. */
struct written {
    struct written *before;
    long at, size, length;
    char old[];
};

static struct written *last;

static unsigned long number_of(const char *name)
{
    const char *text = getenv(name);
    return text ? strtoul(text, 0, 10) : 0;
}

__attribute__((constructor)) static void begin(void)
{
    const char *path = getenv("FAIL_COUNTS");
    long file = path ? syscall(SYS_openat, AT_FDCWD, path, O_RDWR | O_CREAT, 0600) : -1;
    if (file >= 0 && syscall(SYS_ftruncate, file, sizeof none) == 0) {
        long place = syscall(SYS_mmap, 0, sizeof none, 3, 1, file, 0); /* to read and write, shared */
        if (place != -1)
            counts = (struct counts *)place;
        syscall(SYS_close, file);
    }
    first = number_of("FAIL_FIRST");
    rest = number_of("FAIL_REST");
    kind = number_of("FAIL_KIND");
    left_out = number_of("FAIL_LEAVE");
}

static int is_watched(int file)
{
    return file >= 0 && file < (int)sizeof watched ? watched[file] : 0;
}

/* As what a path is watched, 0 where it is not. */
static int path_is(const char *path)
{
    const char *store = getenv("FAIL_STORE"), *folder = getenv("FAIL_FOLDER");
    return store && strcmp(path, store) == 0 ? STORE : folder && strcmp(path, folder) == 0 ? FOLDER : 0;
}

/* Whether this call is to fail. */
static int fails(void)
{
    unsigned long number = __atomic_add_fetch(&counts->calls, 1, __ATOMIC_SEQ_CST);
    if (first == 0 || number < first || (number > first && !rest))
        return 0;
    __atomic_add_fetch(&counts->failed, 1, __ATOMIC_SEQ_CST);
    *__errno_location() = kind == 3 ? ENOSPC : kind == 2 ? EINTR : EIO;
    return 1;
}

static int opened(const char *path, int how, unsigned mode)
{
    int is_ours = path_is(path);
    if (is_ours && fails())
        return -1;
    int is_new = is_ours == STORE && how & O_CREAT && syscall(SYS_access, path, 0) != 0;
    int file = (int)syscall(SYS_openat, AT_FDCWD, path, how, mode);
    if (file >= 0 && file < (int)sizeof watched)
        watched[file] = (char)is_ours;
    is_made |= is_new && file >= 0;
    return file;
}

int open(const char *path, int how, ...)
{
    __builtin_va_list more;
    __builtin_va_start(more, how);
    unsigned mode = how & O_CREAT ? __builtin_va_arg(more, unsigned) : 0;
    __builtin_va_end(more);
    return opened(path, how, mode);
}

int open64(const char *path, int how, ...)
{
    __builtin_va_list more;
    __builtin_va_start(more, how);
    unsigned mode = how & O_CREAT ? __builtin_va_arg(more, unsigned) : 0;
    __builtin_va_end(more);
    return opened(path, how, mode);
}

int close(int file)
{
    if (file >= 0 && file < (int)sizeof watched)
        watched[file] = 0;
    return (int)syscall(SYS_close, file);
}

int statx(int file, const char *restrict path, int how, unsigned mask, struct statx *restrict told)
{
    int is_ours = is_watched(file) && !*path;
    return is_ours && fails() ? -1 : (int)syscall(SYS_statx, file, path, how, mask, told);
}

int fstat(int file, struct stat *told)
{
    return is_watched(file) && fails() ? -1 : (int)syscall(SYS_fstat, file, told);
}

long pread(int file, void *to, size_t size, long at)
{
    return is_watched(file) && fails() ? -1 : syscall(SYS_pread64, file, to, size, at);
}

long pread64(int file, void *to, size_t size, long at)
{
    return pread(file, to, size, at);
}

/* Notes what a write is about to lay over. */
static void note(int file, size_t size, long at)
{
    struct written *one = calloc(1, sizeof *one + size);
    if (!one)
        abort();
    *one = (struct written){last, at, (long)size, syscall(SYS_lseek, file, 0, SEEK_END)};
    if (syscall(SYS_pread64, file, one->old, size, at) < 0)
        abort();
    last = one;
}

/* Forgets the writes since the last sync, and lays back what was there before: all, or what was under the second half
   of each; or nothing. */
static void forget(int file, int is_lost, int is_half)
{
    while (last) {
        struct written *one = last;
        long from = is_half ? one->size / 2 : 0;
        if (is_lost && syscall(SYS_pwrite64, file, one->old + from, one->size - from, one->at + from) < 0)
            abort();
        if (is_lost && !is_half && syscall(SYS_ftruncate, file, one->length) < 0)
            abort();
        last = one->before;
        free(one);
    }
}

static long written(int file, const void *from, size_t size, long at)
{
    if (is_watched(file) == STORE)
        note(file, size, at);
    return syscall(SYS_pwrite64, file, from, size, at);
}

/* A new store is written only when its folder is synced, and a gate opened only when all that was written is. */
static void ask_for_sync(int file, const void *from, size_t size, long at)
{
    if (is_watched(file) == STORE && last && size == 1 && *(const unsigned char *)from == 0xA7 && at % 4096 == 0)
        abort();
    if (is_watched(file) == STORE && is_made)
        abort();
}

long pwrite(int file, const void *from, size_t size, long at)
{
    ask_for_sync(file, from, size, at);
    if (!is_watched(file) || !fails())
        return written(file, from, size, at);
    if (kind == 2)
        return size > 1 ? written(file, from, size / 2, at) : -1;
    if (kind == 1 && size > 1) {
        written(file, from, size / 2, at);
        *__errno_location() = EIO;
    }
    return -1;
}

long pwrite64(int file, const void *from, size_t size, long at)
{
    return pwrite(file, from, size, at);
}

/* A sync of a file by this call of the system. */
static int synced(int file, long call)
{
    int is = is_watched(file), is_failed = is && fails(), error = *__errno_location();
    if (!is || (is_failed && kind == 2))
        return is ? -1 : (int)syscall(call, file);
    if (is == STORE)
        forget(file, is_failed, kind == 1);
    else if (is_failed && is_made)
        syscall(SYS_unlink, getenv("FAIL_STORE"));
    else
        is_made = 0;
    *__errno_location() = error;
    return is_failed ? -1 : (int)syscall(call, file);
}

int fdatasync(int file)
{
    if (left_out == 1 && is_watched(file) == STORE)
        return 0;
    return synced(file, SYS_fdatasync);
}

int fsync(int file)
{
    if (left_out == 2 && is_watched(file) == FOLDER)
        return 0;
    return synced(file, SYS_fsync);
}

int ftruncate(int file, long size)
{
    return is_watched(file) && fails() ? -1 : (int)syscall(SYS_ftruncate, file, size);
}
