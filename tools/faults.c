/* Loaded before the C library by tools/hostile: makes one call of the program to it fail, or each read and write short.

   FAULTS_COUNTS names a file of three 64-bit numbers, in which the calls for memory, the reads and the writes are counted.
   FAULTS_MEMORY, FAULTS_READ and FAULTS_WRITE are the number, from 1, of the call that fails; 0 is none.
   FAULTS_MOST is how many bytes a read or a write moves at most; 0 is any number.
   FAULTS_EDIT names a file that is changed before the read whose number FAULTS_EDIT_AT gives: FAULTS_TEXT is added to it, or,
   where there is none, it is cut to half its length. */

#define _GNU_SOURCE
#include <errno.h>
#include <fcntl.h>
#include <stdint.h>
#include <stdlib.h>
#include <string.h>
#include <sys/mman.h>
#include <sys/stat.h>
#include <sys/syscall.h>
#include <unistd.h>

extern void *__libc_malloc(size_t);
extern void *__libc_calloc(size_t, size_t);
extern void *__libc_realloc(void *, size_t);
extern void *__libc_memalign(size_t, size_t);

enum call { MEMORY, READ, WRITE, CALLS };

static int64_t no_file[CALLS];
static int64_t *counts = no_file;
static int64_t failing[CALLS];
static int64_t most, edit_at;
static const char *edited;

static int64_t number(const char *name) {
    const char *text = getenv(name);
    return text ? atoll(text) : 0;
}

__attribute__((constructor)) static void begin(void) {
    const char *path = getenv("FAULTS_COUNTS");
    int file = path ? open(path, O_RDWR) : -1;
    if (file >= 0) {
        void *shared = mmap(0, CALLS * sizeof *counts, PROT_READ | PROT_WRITE, MAP_SHARED, file, 0);
        if (shared != MAP_FAILED) counts = shared;
        close(file);
    }
    failing[MEMORY] = number("FAULTS_MEMORY");
    failing[READ] = number("FAULTS_READ");
    failing[WRITE] = number("FAULTS_WRITE");
    most = number("FAULTS_MOST");
    edit_at = number("FAULTS_EDIT_AT");
    edited = getenv("FAULTS_EDIT");
}

static int fails(enum call call) {
    return __atomic_add_fetch(&counts[call], 1, __ATOMIC_SEQ_CST) == failing[call];
}

static void edit(void) {
    int file = open(edited, O_WRONLY | O_APPEND);
    const char *text = getenv("FAULTS_TEXT");
    struct stat about;
    if (file < 0 || fstat(file, &about) != 0) abort();
    if (text ? syscall(SYS_write, file, text, strlen(text)) < 0 : ftruncate(file, about.st_size / 2) != 0) abort();
    close(file);
}

void *malloc(size_t size) {
    if (fails(MEMORY)) return errno = ENOMEM, (void *)0;
    return __libc_malloc(size);
}

void *calloc(size_t count, size_t size) {
    if (fails(MEMORY)) return errno = ENOMEM, (void *)0;
    return __libc_calloc(count, size);
}

void *realloc(void *old, size_t size) {
    if (fails(MEMORY)) return errno = ENOMEM, (void *)0;
    return __libc_realloc(old, size);
}

void *aligned_alloc(size_t alignment, size_t size) {
    if (fails(MEMORY)) return errno = ENOMEM, (void *)0;
    return __libc_memalign(alignment, size);
}

int posix_memalign(void **found, size_t alignment, size_t size) {
    if (fails(MEMORY)) return ENOMEM;
    *found = __libc_memalign(alignment, size);
    return *found ? 0 : ENOMEM;
}

ssize_t read(int file, void *bytes, size_t size) {
    if (fails(READ)) return errno = EIO, -1;
    if (edited && counts[READ] == edit_at) edit();
    return syscall(SYS_read, file, bytes, most && size > (size_t)most ? (size_t)most : size);
}

ssize_t write(int file, const void *bytes, size_t size) {
    if (fails(WRITE)) return errno = EIO, -1;
    return syscall(SYS_write, file, bytes, most && size > (size_t)most ? (size_t)most : size);
}
