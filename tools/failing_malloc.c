// Preloaded into a program, makes memory requests fail. It counts the requests between the marks that the program
// writes to its standard output, and makes one of them fail, or all. When the program exits, it reports how many
// requests it counted, how many blocks the whole run allocated and freed, and the size of the greatest request it counted.
//
// Environment: FAIL_REQUEST is the number of the request that fails, from 1, or `all`, or 0 for none. With COUNT=run,
// the whole run is counted. REPORT_TO is the file descriptor for the report.
//
// It needs glibc (Linux): it replaces `malloc` and calls glibc's `__libc_malloc`.
#define _GNU_SOURCE
#include <errno.h>
#include <stddef.h>
#include <stdio.h>
#include <stdlib.h>
#include <string.h>
#include <sys/syscall.h>
#include <unistd.h>

extern void *__libc_malloc(size_t size);
extern void *__libc_calloc(size_t count, size_t size);
extern void *__libc_realloc(void *block, size_t size);
extern void *__libc_memalign(size_t alignment, size_t size);
extern void __libc_free(void *block);

static const char BEGIN[] = "-- call\n";
static const char END[] = "-- answer\n";

static int counting;
static int report_to;
static int all_fail;
static unsigned long failing;
static unsigned long requests;
static unsigned long allocated;
static unsigned long freed;
static unsigned long greatest;

__attribute__((constructor)) static void begin(void) {
    const char *which = getenv("FAIL_REQUEST");
    const char *what = getenv("COUNT");
    const char *where = getenv("REPORT_TO");
    all_fail = which && strcmp(which, "all") == 0;
    failing = which ? strtoul(which, NULL, 10) : 0;
    counting = what && strcmp(what, "run") == 0;
    report_to = where ? atoi(where) : -1;
    requests = allocated = freed = greatest = 0;
}

__attribute__((destructor)) static void end(void) {
    char line[100];
    int length = snprintf(line, sizeof line, "%lu %lu %lu %lu\n", requests, allocated, freed, greatest);
    if (report_to >= 0) syscall(SYS_write, report_to, line, length);
}

static int fails(size_t size) {
    if (!counting) return 0;
    if (size > greatest) greatest = size;
    return ++requests == failing || all_fail;
}

static void *counted(void *block) {
    allocated += block != NULL;
    return block;
}

void *malloc(size_t size) {
    return fails(size) ? NULL : counted(__libc_malloc(size));
}

void *calloc(size_t count, size_t size) {
    return fails(count * size) ? NULL : counted(__libc_calloc(count, size));
}

void *realloc(void *block, size_t size) {
    if (fails(size)) return NULL;
    void *moved = __libc_realloc(block, size);
    allocated += block == NULL && moved != NULL;
    return moved;
}

void *aligned_alloc(size_t alignment, size_t size) {
    return fails(size) ? NULL : counted(__libc_memalign(alignment, size));
}

int posix_memalign(void **block, size_t alignment, size_t size) {
    *block = aligned_alloc(alignment, size);
    return *block ? 0 : ENOMEM;
}

void free(void *block) {
    freed += block != NULL;
    __libc_free(block);
}

static int is_mark(const char *mark, const void *bytes, size_t length) {
    return length == strlen(mark) && memcmp(bytes, mark, length) == 0;
}

ssize_t write(int file, const void *bytes, size_t length) {
    if (is_mark(BEGIN, bytes, length)) counting = 1;
    if (is_mark(END, bytes, length)) counting = 0;
    return syscall(SYS_write, file, bytes, length);
}
