// For scripts/bodies/tests.py: which of the bodies that are planted beside each other runs, and how much memory is asked for.
//
//   PLANTED=N      the body with this number runs
//   ASKED=FILE     what is asked for is noted in this file, as four numbers: how many requests, their bytes together, those of
//                  the greatest one, and how many are given back
//   LIMIT=PLACE N  the program ends at the request with which the number in this place, from 0 on, is N
#include <fcntl.h>
#include <stdatomic.h>
#include <stddef.h>
#include <stdint.h>
#include <stdio.h>
#include <stdlib.h>
#include <sys/mman.h>
#include <unistd.h>

enum { REQUESTS, BYTES, GREATEST, RETURNED, COUNTED };

static uint32_t running;
static atomic_ulong *asked;
static unsigned long place = COUNTED, limit;

// The body that runs, or 0.
uint32_t planted_body(void) { return running; }

// What finds faulty addresses (AddressSanitizer) calls the first function after each request, and the second after each return of
// memory.
int __sanitizer_install_malloc_and_free_hooks(void (*)(const volatile void *, size_t), void (*)(const volatile void *));

static void count(const volatile void *given, size_t size) {
    (void)given;
    atomic_fetch_add(&asked[REQUESTS], 1);
    atomic_fetch_add(&asked[BYTES], size);
    if (size > asked[GREATEST])
        asked[GREATEST] = size;
    if (place < COUNTED && asked[place] >= limit)
        _exit(1);
}

static void count_return(const volatile void *given) {
    if (given)
        atomic_fetch_add(&asked[RETURNED], 1);
}

__attribute__((constructor)) static void begin(void) {
    const char *body = getenv("PLANTED"), *path = getenv("ASKED"), *most = getenv("LIMIT");
    running = body ? (uint32_t)strtoul(body, NULL, 10) : 0;
    if (most && sscanf(most, "%lu %lu", &place, &limit) != 2)
        _exit(3);
    if (!path)
        return;
    asked = mmap(NULL, COUNTED * sizeof *asked, PROT_READ | PROT_WRITE, MAP_SHARED, open(path, O_RDWR), 0);
    if (asked == MAP_FAILED)
        _exit(3);
    __sanitizer_install_malloc_and_free_hooks(count, count_return);
}
