/* Faults for the program quicklook, by LD_PRELOAD; its GDAL process is left alone.
 *   FAULT=FUNCTION:N:ERRNO   the Nth call of a C function fails; with N* that one and all after it; several with commas. With
 *                            FAULT_KILL=1 it ends the program as kill -9 does, with FAULT_WAIT=SECONDS it takes its time and does not fail;
 *                            the file FAULT_MARK is made when it begins to; with FAULT_NO_MEMORY=1 it is done, and from there on there is no memory
 *   FAULT_PATH=END           only opens of paths that end so count
 *   FAULT_COUNTS=FILE        how often each function was called
 *   FAULT_RANDOM=1           random numbers are all 0
 *   FAULT_FLOAT=up|flush|trap   every thread begins in another floating-point environment */
#define _GNU_SOURCE
#include <dlfcn.h>
#include <errno.h>
#include <fcntl.h>
#include <pthread.h>
#include <signal.h>
#include <spawn.h>
#include <stdarg.h>
#include <stdatomic.h>
#include <stdio.h>
#include <stdlib.h>
#include <string.h>
#include <sys/random.h>
#include <sys/stat.h>
#include <sys/syscall.h>
#include <unistd.h>
#include <xmmintrin.h>

enum call { OPEN, WRITE, READ, PREAD, FSYNC, RENAME, LINK, UNLINK, CHMOD, CHOWN, LOCK, RANDOM, THREAD, SPAWN, PIPE, MKDIR, EXCHANGE, CALLS };
static const char *const NAMES[CALLS] = { "open", "write", "read", "pread", "fsync", "rename", "link", "unlink", "fchmod", "fchown",
                                          "flock", "getrandom", "thread", "spawn", "pipe", "mkdir", "exchange" };
static atomic_int count[CALLS];
static struct { int at, is_for_ever, number; } faults[CALLS];
static int is_meant;
static atomic_int is_without_memory;
static unsigned float_mode;

static void set_float(void)
{
    if (float_mode) _mm_setcsr(float_mode);
}

__attribute__((constructor)) static void begin(void)
{
    is_meant = !strcmp(program_invocation_short_name, "quicklook");
    const char *words = getenv("FAULT"), *mode = getenv("FAULT_FLOAT");
    if (!is_meant) return;
    while (words && *words) {
        char name[32], star[2] = "";
        int at, number;
        if (sscanf(words, "%31[a-z]:%d:%d", name, &at, &number) != 3 && sscanf(words, "%31[a-z]:%d%1[*]:%d", name, &at, star, &number) != 4) abort();
        for (int k = 0; k < CALLS; k++)
            if (!strcmp(name, NAMES[k])) faults[k].at = at, faults[k].is_for_ever = *star, faults[k].number = number;
        words = strchr(words, ',');
        if (words) words++;
    }
    if (mode) float_mode = !strcmp(mode, "up") ? 0x5f80 : !strcmp(mode, "flush") ? 0x9fc0 : 0x1f00;
    set_float();
}

__attribute__((destructor)) static void end(void)
{
    const char *path = getenv("FAULT_COUNTS");
    FILE *file = is_meant && path ? fopen(path, "w") : NULL;
    if (!file) return;
    for (int k = 0; k < CALLS; k++) fprintf(file, "%s %d\n", NAMES[k], count[k]);
    fclose(file);
}

static int is_due(enum call call)
{
    if (!is_meant) return 0;
    int n = ++count[call];
    if (!faults[call].at || n < faults[call].at || (n > faults[call].at && !faults[call].is_for_ever)) return 0;
    if (getenv("FAULT_KILL")) raise(SIGKILL);
    if (getenv("FAULT_NO_MEMORY")) {
        is_without_memory = 1;
        return 0;
    }
    if (getenv("FAULT_WAIT")) {
        const char *mark = getenv("FAULT_MARK");
        if (mark) syscall(SYS_close, syscall(SYS_openat, AT_FDCWD, mark, O_CREAT | O_WRONLY, 0600));
        usleep(1000000 * atof(getenv("FAULT_WAIT")));
        return 0;
    }
    errno = faults[call].number;
    return 1;
}

#define REAL(name) ((__typeof__(&name))dlsym(RTLD_NEXT, #name))
#define MODE(flags) mode_t mode = 0; if ((flags) & (O_CREAT | O_TMPFILE)) { va_list list; va_start(list, flags); mode = va_arg(list, mode_t); va_end(list); }

static int is_open_due(const char *path)
{
    const char *end = getenv("FAULT_PATH");
    size_t n = end ? strlen(end) : 0, len = strlen(path);
    return (!end || (len >= n && !strcmp(path + len - n, end))) && is_due(OPEN);
}

int open(const char *path, int flags, ...) { MODE(flags) return is_open_due(path) ? -1 : REAL(open)(path, flags, mode); }
int open64(const char *path, int flags, ...) { MODE(flags) return is_open_due(path) ? -1 : REAL(open64)(path, flags, mode); }
ssize_t write(int file, const void *bytes, size_t len) { return is_due(WRITE) ? -1 : REAL(write)(file, bytes, len); }
ssize_t read(int file, void *bytes, size_t len) { return is_due(READ) ? -1 : REAL(read)(file, bytes, len); }
ssize_t pread64(int file, void *bytes, size_t len, off64_t from) { return is_due(PREAD) ? -1 : REAL(pread64)(file, bytes, len, from); }
int fsync(int file) { return is_due(FSYNC) ? -1 : REAL(fsync)(file); }
int rename(const char *from, const char *to) { return is_due(RENAME) ? -1 : REAL(rename)(from, to); }
int renameat2(int a, const char *from, int b, const char *to, unsigned flags) { return is_due(EXCHANGE) ? -1 : REAL(renameat2)(a, from, b, to, flags); }
int linkat(int a, const char *from, int b, const char *to, int flags) { return is_due(LINK) ? -1 : REAL(linkat)(a, from, b, to, flags); }
int unlink(const char *path) { return is_due(UNLINK) ? -1 : REAL(unlink)(path); }
int fchmod(int file, mode_t mode) { return is_due(CHMOD) ? -1 : REAL(fchmod)(file, mode); }
int fchown(int file, uid_t owner, gid_t group) { return is_due(CHOWN) ? -1 : REAL(fchown)(file, owner, group); }
int flock(int file, int how) { return is_due(LOCK) ? -1 : REAL(flock)(file, how); }
int pipe2(int ends[2], int flags) { return is_due(PIPE) ? -1 : REAL(pipe2)(ends, flags); }
int mkdir(const char *path, mode_t mode) { return is_due(MKDIR) ? -1 : REAL(mkdir)(path, mode); }

ssize_t getrandom(void *bytes, size_t len, unsigned flags)
{
    if (is_due(RANDOM)) return -1;
    if (is_meant && getenv("FAULT_RANDOM")) return memset(bytes, 0, len), (ssize_t)len;
    return REAL(getrandom)(bytes, len, flags);
}

int posix_spawnp(pid_t *process, const char *path, const posix_spawn_file_actions_t *actions, const posix_spawnattr_t *attributes,
                 char *const words[], char *const environment[])
{
    return is_due(SPAWN) ? faults[SPAWN].number : REAL(posix_spawnp)(process, path, actions, attributes, words, environment);
}

extern void *__libc_malloc(size_t), *__libc_calloc(size_t, size_t), *__libc_realloc(void *, size_t);
void *malloc(size_t len) { return is_without_memory ? NULL : __libc_malloc(len); }
void *calloc(size_t count, size_t len) { return is_without_memory ? NULL : __libc_calloc(count, len); }
void *realloc(void *old, size_t len) { return is_without_memory ? NULL : __libc_realloc(old, len); }

struct start { void *(*run)(void *); void *with; };

static void *run_thread(void *given)
{
    struct start start = *(struct start *)given;
    free(given);
    set_float();
    return start.run(start.with);
}

int pthread_create(pthread_t *thread, const pthread_attr_t *attributes, void *(*run)(void *), void *with)
{
    if (is_due(THREAD)) return faults[THREAD].number;
    struct start *start = malloc(sizeof *start);
    *start = (struct start){ run, with };
    return REAL(pthread_create)(thread, attributes, run_thread, start);
}
