// Stands between a program and its memory: counts the requests, refuses one of them, and keeps the peak. It is compiled as a
// library that is loaded before the C library (LD_PRELOAD). The program's own requests count alone, and none of that library's.
//
//   REFUSE=N            the Nth request is refused
//   REFUSE_COUNT=FILE   the number of requests, and the greatest number of bytes at once are written there at the end
//   REFUSE_SINCE=N      the greatest number of bytes leaves out what was held before the request after the Nth
#define _GNU_SOURCE
#include <link.h>
#include <malloc.h>
#include <stdatomic.h>
#include <stdio.h>
#include <stdlib.h>
#include <sys/syscall.h>
#include <unistd.h>

void *__libc_malloc(size_t size);
void *__libc_realloc(void *place, size_t size);
void __libc_free(void *place);

static atomic_ulong made;
static atomic_long held, peak, held_before;
static unsigned long refused, since;

// Where the program's code begins and ends, among all that is loaded.
static char *code_begin, *code_end;

static int find_code(struct dl_phdr_info *info, size_t size, void *data) {
    (void)size, (void)data;
    for (int i = 0; i < info->dlpi_phnum; i++) {
        if (info->dlpi_phdr[i].p_type == PT_LOAD && info->dlpi_phdr[i].p_flags & PF_X) {
            code_begin = (char *)info->dlpi_addr + info->dlpi_phdr[i].p_vaddr;
            code_end = code_begin + info->dlpi_phdr[i].p_memsz;
        }
    }
    // The program comes first.
    return 1;
}

// Whether the program itself asks.
static int is_own(void *caller) { return code_begin <= (char *)caller && (char *)caller < code_end; }

static void say(void) {
    const char *count = getenv("REFUSE_COUNT");
    FILE *file = count ? fopen(count, "w") : NULL;
    if (!file)
        return;
    fprintf(file, "%lu %ld\n", made, peak - held_before);
    fclose(file);
}

// The number of a variable, or 0.
static unsigned long number_of(const char *variable) {
    const char *word = getenv(variable);
    return word ? strtoul(word, NULL, 10) : 0;
}

__attribute__((constructor)) static void begin(void) {
    dl_iterate_phdr(find_code, NULL);
    refused = number_of("REFUSE");
    since = number_of("REFUSE_SINCE");
    atexit(say);
}

// Bytes that are held from now on, or no longer.
static void hold(long bytes) {
    long now = atomic_fetch_add(&held, bytes) + bytes;
    long before = peak;
    while (now > before && !atomic_compare_exchange_weak(&peak, &before, now)) {
    }
}

static int is_refused(void) {
    unsigned long number = atomic_fetch_add(&made, 1) + 1;
    if (since && number == since + 1) {
        held_before = held;
        peak = held;
    }
    return number == refused;
}

void *malloc(size_t size) {
    if (!is_own(__builtin_return_address(0)))
        return __libc_malloc(size);
    if (is_refused())
        return NULL;
    void *place = __libc_malloc(size);
    if (place)
        hold((long)malloc_usable_size(place));
    return place;
}

// The old place and the new one are held at once, as where the memory has to move.
void *realloc(void *place, size_t size) {
    if (!is_own(__builtin_return_address(0)))
        return __libc_realloc(place, size);
    if (is_refused())
        return NULL;
    long before = place ? (long)malloc_usable_size(place) : 0;
    void *next = __libc_realloc(place, size);
    if (next) {
        hold((long)malloc_usable_size(next));
        hold(-before);
    }
    return next;
}

void free(void *place) {
    if (place && is_own(__builtin_return_address(0)))
        hold(-(long)malloc_usable_size(place));
    __libc_free(place);
}

_Noreturn void _exit(int status) {
    say();
    for (;;)
        syscall(SYS_exit_group, status);
}
