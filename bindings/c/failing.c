/* Fails each allocation of each call in turn. The call then returns FANLIGHTNARD_MEMORY, leaves its buffer, or
 * does without; either way it frees what it allocated, and leaves errno. Link it with the library's objects and
 * -Wl,--wrap=malloc,--wrap=realloc,--wrap=free. */
#include "fanlightnard.h"

#include <errno.h>
#include <stdio.h>
#include <stdlib.h>
#include <string.h>

enum { BUFFER = 400, ERRNO = 4711 };

static int failures, checks;

static void check(int holds, const char *call, const char *what) {
    checks++;
    if (!holds) {
        failures++;
        fprintf(stderr, "failing: %s: %s\n", call, what);
    }
}

/* ---- allocations, which set errno whether they fail or not */

static unsigned long count, failing;
static long held;

void *__real_malloc(size_t len);
void *__real_realloc(void *bytes, size_t len);
void __real_free(void *bytes);
void *__wrap_malloc(size_t len);
void *__wrap_realloc(void *bytes, size_t len);
void __wrap_free(void *bytes);

void *__wrap_malloc(size_t len) {
    void *made = ++count == failing ? NULL : __real_malloc(len);
    held += made != NULL;
    errno = ENOMEM;
    return made;
}

void *__wrap_realloc(void *bytes, size_t len) {
    void *made = ++count == failing ? NULL : __real_realloc(bytes, len);
    held += made && !bytes;
    errno = ENOMEM;
    return made;
}

void __wrap_free(void *bytes) {
    held -= bytes != NULL;
    __real_free(bytes);
    errno = EINVAL;
}

/* ---- the calls */

static const char text[] = "NameNoteAdafirst program";
static const size_t ends[] = {4, 8, 11, 24};
static const fanlightnard_cells cells = {text, sizeof text - 1, ends, 4, 2, 2};
static const char rows[] = "Name\tNote\nAda\tfirst program\n";

static fanlightnard_options fitted(uint32_t fit) {
    fanlightnard_options options = FANLIGHTNARD_OPTIONS;
    options.fit = fit;
    options.width = 18;
    return options;
}

static ptrdiff_t format_cells(char *buffer) {
    const fanlightnard_options options = fitted(FANLIGHTNARD_WRAP_WORDS);
    return fanlightnard_format(&cells, &options, buffer, BUFFER);
}

static ptrdiff_t format_rows(char *buffer) {
    const fanlightnard_options options = fitted(FANLIGHTNARD_TRUNCATE);
    return fanlightnard_format_text(rows, sizeof rows - 1, &options, buffer, BUFFER);
}

struct sink {
    char *buffer;
    size_t len;
};

static int put(void *context, const char *block, size_t len) {
    struct sink *sink = (struct sink *)context;
    memcpy(sink->buffer + sink->len, block, len);
    sink->len += len;
    return 0;
}

/* The number of bytes that were written, or an error. */
static ptrdiff_t write_cells(char *buffer) {
    const fanlightnard_options options = fitted(FANLIGHTNARD_WRAP);
    struct sink sink = {buffer, 0};
    const int error = fanlightnard_write(&cells, &options, put, &sink);
    return error ? error : (ptrdiff_t)sink.len;
}

static ptrdiff_t write_rows(char *buffer) {
    struct sink sink = {buffer, 0};
    const int error = fanlightnard_write_text(rows, sizeof rows - 1, NULL, put, &sink);
    return error ? error : (ptrdiff_t)sink.len;
}

static ptrdiff_t truncate_text(char *buffer) {
    return fanlightnard_truncate("北京x", strlen("北京x"), 3, buffer, BUFFER);
}

static ptrdiff_t wrap_text(char *buffer) { return fanlightnard_wrap("one two", 7, 4, 1, buffer, BUFFER); }

static const struct {
    const char *name;
    ptrdiff_t (*run)(char *buffer);
} calls[] = {
    {"format", format_cells}, {"format_text", format_rows},  {"write", write_cells},
    {"write_text", write_rows}, {"truncate", truncate_text}, {"wrap", wrap_text},
};

/* Runs a call with a failing allocation, or with none for 0. */
static ptrdiff_t run(size_t call, unsigned long n, char *buffer) {
    memset(buffer, '#', BUFFER);
    count = 0;
    failing = n;
    errno = ERRNO;
    const ptrdiff_t result = calls[call].run(buffer);
    const int left = errno;
    failing = 0;
    check(left == ERRNO, calls[call].name, "errno stays");
    check(held == 0, calls[call].name, "all that was allocated is freed");
    return result;
}

static unsigned long fail_in_turn(size_t call) {
    char whole[BUFFER], buffer[BUFFER], unchanged[BUFFER];
    memset(unchanged, '#', BUFFER);
    const ptrdiff_t len = run(call, 0, whole);
    const unsigned long allocations = count;
    check(len > 0 && len <= BUFFER, calls[call].name, "it succeeds");
    unsigned long failed = 0;
    for (unsigned long n = 1; n <= allocations; n++) {
        const ptrdiff_t result = run(call, n, buffer);
        check(result == len || result == FANLIGHTNARD_MEMORY, calls[call].name, "it succeeds or says that memory ran out");
        check(memcmp(buffer, result < 0 ? unchanged : whole, BUFFER) == 0, calls[call].name, "an error leaves the buffer");
        failed += result < 0;
    }
    check(failed > 0, calls[call].name, "an allocation that fails is seen");
    return allocations;
}

/* ---- errno of a writer */

static int stop(void *context, const char *block, size_t len) {
    (void)context, (void)block, (void)len;
    errno = EPIPE;
    return 1;
}

int main(void) {
    unsigned long allocations = 0;
    for (size_t call = 0; call < sizeof calls / sizeof *calls; call++) allocations += fail_in_turn(call);
    errno = ERRNO;
    const int stopped = fanlightnard_write(&cells, NULL, stop, NULL);
    check(errno == EPIPE && stopped == FANLIGHTNARD_STOPPED, "write", "errno is what the writer set");
    printf("failing: %lu allocations, %d checks, %d failed\n", allocations, checks, failures);
    return failures != 0;
}
