// Refuses the requests for memory of a script's lines, each in a process of its own. A program that is passed the word `refuse`
// first runs with none refused. Then it runs again, and at each request a process goes on with that one refused, while this one
// waits: it must print what the first run printed, and end with 0, and just one line must have been done again. A request beside
// other threads, of which a process of its own has none, is refused in a run from the beginning. What differs is printed. Then
// the program goes on as without the word, and refuses nothing.
//
// The program's own requests count, and none of the C library's or of what finds faulty addresses (AddressSanitizer), which
// stands behind these.
#define _GNU_SOURCE
#include <fcntl.h>
#include <link.h>
#include <stdatomic.h>
#include <stddef.h>
#include <stdint.h>
#include <stdio.h>
#include <stdlib.h>
#include <string.h>
#include <sys/mman.h>
#include <sys/wait.h>
#include <unistd.h>

#define MOST_LEFT 1000

void *___interceptor_malloc(size_t size);
void *___interceptor_realloc(void *place, size_t size);

// What a process and the one that waits for it both see.
struct seen {
    atomic_ulong requests; // so far
    atomic_ulong again;    // how many lines were done again
    unsigned long tried, bad;
    atomic_ulong left_count; // how many requests were made beside other threads, perhaps by two at once
    unsigned long left[MOST_LEFT]; // their numbers
};

static struct seen *seen;
static unsigned long refused; // the number of the request that is refused, or 0
static int is_forking;        // whether a process goes on at each request with it refused
static int right;             // what the first run printed
static atomic_uint is_watched;
static atomic_ulong until; // how many requests there are until one is refused, or 0

// Where the program's code begins and ends, among all that is loaded.
static char *code_begin, *code_end;

static int find_code(struct dl_phdr_info *info, size_t size, void *data) {
    (void)size, (void)data;
    for (int i = 0; i < info->dlpi_phnum; i++) {
        if (info->dlpi_phdr[i].p_type == PT_LOAD && info->dlpi_phdr[i].p_flags & PF_X) {
            code_begin = (char *)info->dlpi_addr + info->dlpi_phdr[i].p_vaddr;
            code_end = code_begin + info->dlpi_phdr[i].p_memsz;
        }
    }
    // The program comes first.
    return 1;
}

// A file in memory with the beginning of another one, of this length.
static int file_of(int other, off_t length) {
    static char bytes[65536];
    int file = memfd_create("refuse", 0);
    if (file < 0)
        _exit(3);
    for (ssize_t count; length > 0; length -= count) {
        count = read(other, bytes, sizeof bytes);
        if (count <= 0)
            break;
        if (write(file, bytes, (size_t)count) != count)
            _exit(3);
    }
    return file;
}

// Whether both files have the same bytes.
static int are_same(int one, int other) {
    static char left[65536], right[65536];
    for (off_t place = 0;; place += sizeof left) {
        ssize_t count = pread(one, left, sizeof left, place);
        if (count < 0 || count != pread(other, right, sizeof right, place) || memcmp(left, right, (size_t)count))
            return 0;
        if (count == 0)
            return 1;
    }
}

// Notes how a process ended in which this request was refused, and which printed that.
static void judge(unsigned long request, int status, int file) {
    int is_same = are_same(right, file);
    seen->tried++;
    if (!status && is_same && seen->again == 1)
        return;
    if (seen->bad++ < 10)
        fprintf(stderr, "request %lu: status %d, %lu lines again%s\n", request, status, seen->again,
                is_same ? "" : ", prints something else");
}

// Whether this process has other threads.
static int has_threads(void) {
    char text[1024];
    int file = open("/proc/self/stat", O_RDONLY);
    ssize_t count = read(file, text, sizeof text - 1);
    close(file);
    if (count <= 0)
        _exit(3);
    text[count] = 0;
    char *word = strrchr(text, ')');
    for (int i = 0; word && i < 18; i++)
        word = strchr(word + 1, ' ');
    return !word || atoi(word) != 1;
}

// Whether this request is refused: in the process that goes on with it, which has what was printed so far.
static int forks_here(unsigned long request) {
    if (has_threads()) {
        unsigned long place = atomic_fetch_add(&seen->left_count, 1);
        if (place >= MOST_LEFT)
            _exit(3);
        seen->left[place] = request;
        return 0;
    }
    unsigned long requests = seen->requests;
    off_t printed = lseek(1, 0, SEEK_CUR);
    lseek(1, 0, SEEK_SET);
    int file = file_of(1, printed), status = 0;
    seen->again = 0;
    pid_t child = fork();
    if (child < 0)
        _exit(3);
    if (child == 0) {
        is_forking = 0;
        dup2(file, 1);
        close(file);
        return 1;
    }
    waitpid(child, &status, 0);
    judge(request, status, file);
    close(file);
    seen->requests = requests;
    return 0;
}

static int is_refused(void *caller) {
    if ((char *)caller < code_begin || code_end <= (char *)caller)
        return 0;
    if (until)
        return --until == 0;
    if (!seen || !is_watched)
        return 0;
    unsigned long request = atomic_fetch_add(&seen->requests, 1) + 1;
    return is_forking ? forks_here(request) : request == refused;
}

void *malloc(size_t size) { return is_refused(__builtin_return_address(0)) ? NULL : ___interceptor_malloc(size); }

void *realloc(void *place, size_t size) {
    return is_refused(__builtin_return_address(0)) ? NULL : ___interceptor_realloc(place, size);
}

// Whether the requests count from now on: those of a line, and none between lines.
void watch(uint32_t is_on) { is_watched = is_on; }

// Has this request refused, counted from now on, or with 0 none, in a run in which no other one is.
void refuse_one(uint32_t request) { until = request; }

// A line is done again.
void do_again(void) {
    if (seen)
        seen->again++;
}

// Begins a process that prints into a file, and returns 0 there. Elsewhere it returns the file, and how the process ended.
static int run(int *status) {
    int file = file_of(-1, 0);
    lseek(0, 0, SEEK_SET);
    seen->requests = seen->again = 0;
    pid_t child = fork();
    if (child < 0)
        _exit(3);
    if (child == 0) {
        dup2(file, 1);
        close(file);
        return 0;
    }
    waitpid(child, status, 0);
    return file;
}

__attribute__((constructor)) static void refuse_each(int count, char **words) {
    dl_iterate_phdr(find_code, NULL);
    if (count != 2 || strcmp(words[1], "refuse"))
        return;
    seen = mmap(NULL, sizeof *seen, PROT_READ | PROT_WRITE, MAP_SHARED | MAP_ANONYMOUS, -1, 0);
    if (seen == MAP_FAILED)
        _exit(3);
    // Each process reads standard input from the beginning.
    dup2(file_of(0, 1L << 40), 0);
    int status;
    right = run(&status);
    if (!right)
        return;
    unsigned long requests = seen->requests;
    int is_whole = !status && !seen->again && requests;
    is_forking = 1;
    int again = run(&status);
    if (!again)
        return;
    is_forking = 0;
    is_whole = is_whole && !status && are_same(right, again);
    requests = seen->requests;
    for (unsigned long i = 0; i < seen->left_count; i++) {
        refused = seen->left[i];
        int file = run(&status);
        if (!file)
            return;
        // Threads may make fewer requests another time.
        if (refused <= seen->requests)
            judge(refused, status, file);
        else
            requests--;
        close(file);
    }
    fprintf(stderr, "%lu of %lu requests refused\n", seen->tried, requests);
    if (!is_whole || seen->bad || seen->tried != requests)
        printf("refused memory: %lu of %lu requests tried, %lu bad\n", seen->tried, requests, seen->bad);
    fflush(stdout);
    refused = 0;
    seen = NULL;
    lseek(0, 0, SEEK_SET);
}
