/* Calls with damaged lengths, ends, counts, options and bytes: each returns, and writes to its buffer alone.
 * The options end with a page that no other follows, so that a read behind them is a fault.
 *
 * usage: damaged [CALLS [SEED]] */
#define _DEFAULT_SOURCE /* MAP_ANONYMOUS */
#include "fanlightnard.h"

#include <stdio.h>
#include <stdlib.h>
#include <string.h>
#include <sys/mman.h>
#include <unistd.h>

enum { TEXT = 96, CELLS = 24, BUFFER = 600, GUARD = 32 };

static uint64_t state;

/* xorshift64* */
static uint64_t any(void) {
    state ^= state >> 12;
    state ^= state << 25;
    state ^= state >> 27;
    return state * UINT64_C(2685821657736338717);
}

static size_t below(size_t n) { return (size_t)(any() % n); }

/* A value, or seldom any number. */
static size_t damaged(size_t value) {
    switch (below(40)) {
    case 0: return (size_t)any();
    case 1: return SIZE_MAX - below(3);
    case 2: return (size_t)PTRDIFF_MAX + 1 + below(3);
    case 3: return value + 1;
    case 4: return value - 1;
    default: return value;
    }
}

/* A length of at most `most`, or one that is greater than any object. */
static size_t damaged_len(size_t len, size_t most) {
    size_t other = damaged(len);
    return other <= most || other > PTRDIFF_MAX ? other : len;
}

/* The size of the options, or sometimes a smaller or a greater one. */
static size_t damaged_size(void) {
    const size_t size = sizeof(fanlightnard_options);
    switch (below(50)) {
    case 0: return below(size);
    case 1: return size + 1 + below(16);
    case 2: return size + 1 + below(1 << 20);
    case 3: return SIZE_MAX - below(1 << 20);
    default: return size;
    }
}

/* Returns the place of options right before a page that can't be read. */
static fanlightnard_options *options_at_end(void) {
    const size_t page = (size_t)sysconf(_SC_PAGESIZE);
    unsigned char *pages =
        (unsigned char *)mmap(NULL, 2 * page, PROT_READ | PROT_WRITE, MAP_PRIVATE | MAP_ANONYMOUS, -1, 0);
    if (pages == MAP_FAILED || mprotect(pages + page, page, PROT_NONE)) {
        perror("damaged");
        exit(2);
    }
    return (fanlightnard_options *)(pages + page - sizeof(fanlightnard_options));
}

static const char *const pieces[] = {"a", "word ", "\n", "\t", "北京", "é", "\xcc\x81", "👨‍👩‍👧", "", "12345"};

static size_t fill_text(char *text) {
    size_t len = 0;
    for (;;) {
        const char *piece = pieces[below(sizeof pieces / sizeof *pieces)];
        if (len + strlen(piece) > TEXT - 8 || below(12) == 0) break;
        memcpy(text + len, piece, strlen(piece));
        len += strlen(piece);
    }
    if (len && below(8) == 0) text[below(len)] = (char)any();
    return len;
}

struct stops { size_t left; };

static int sink(void *context, const char *block, size_t len) {
    struct stops *stops = (struct stops *)context;
    volatile char read = len ? block[len - 1] : 0;
    (void)read;
    return stops->left-- == 0;
}

static unsigned long counts[12], wrong_sizes;

static void fail(const char *what) {
    fprintf(stderr, "damaged: %s\n", what);
    abort();
}

static void one_call(fanlightnard_options *options) {
    char text[TEXT];
    size_t ends[CELLS];
    uint8_t align[CELLS];
    char buffer[GUARD + BUFFER + GUARD], before[sizeof buffer];
    size_t len = fill_text(text), columns = below(5), rows = columns ? below(CELLS / columns + 1) : 0;
    size_t count = rows * columns;
    for (size_t i = 0; i < count; i++) {
        /* Where characters end, mostly. */
        size_t end = i + 1 == count ? len : i * len / count;
        while (end < len && ((unsigned char)text[end] & 0xc0) == 0x80) end++;
        ends[i] = below(9) || i + 1 == count ? damaged(end) : FANLIGHTNARD_NULL;
    }
    for (size_t i = 0; i < CELLS; i++) align[i] = (uint8_t)(below(20) ? below(3) : any());
    fanlightnard_cells cells = {below(50) ? text : NULL, damaged_len(len, TEXT), below(50) ? ends : NULL,
                                damaged_len(count, count), damaged(rows), damaged(columns)};
    const fanlightnard_options made = {damaged_size(),
                                       (uint32_t)damaged(below(12)), (uint32_t)damaged(below(4)),
                                       (uint32_t)damaged(below(5)), (uint32_t)damaged(below(2)), damaged(below(60)),
                                       below(50) ? align : NULL, damaged_len(below(columns + 1), CELLS),
                                       below(50) ? text : NULL, damaged_len(below(len + 1), TEXT)};
    *options = made;
    size_t room = below(3) ? BUFFER : below(BUFFER);
    size_t room_len = below(40) ? room : (size_t)PTRDIFF_MAX + 1 + below(9);
    char *start = below(50) ? buffer + GUARD : NULL;
    for (size_t i = 0; i < sizeof buffer; i++) before[i] = buffer[i] = (char)any();

    ptrdiff_t result;
    const size_t call = below(6);
    switch (call) {
    case 0: result = fanlightnard_format_text(cells.text, cells.text_len, options, start, room_len); break;
    case 1: result = fanlightnard_truncate(cells.text, cells.text_len, damaged(below(20)), start, room_len); break;
    case 2: result = fanlightnard_wrap(cells.text, cells.text_len, damaged(below(20)), (int)below(2), start, room_len); break;
    case 3: {
        struct stops stops = {below(3)};
        result = fanlightnard_write(&cells, options, sink, &stops);
        room = 0;
        break;
    }
    default: result = fanlightnard_format(&cells, options, start, room_len);
    }
    if (call != 1 && call != 2 && made.size != sizeof made) {
        wrong_sizes++;
        if (result != FANLIGHTNARD_BAD_OPTIONS) fail("options of a wrong size were taken");
    }
    counts[result < 0 ? (result < -11 ? 11 : -result) : 0]++;
    size_t written = result > 0 && start && (size_t)result <= room ? (size_t)result : 0;
    if (memcmp(buffer, before, GUARD) || memcmp(buffer + GUARD + written, before + GUARD + written, sizeof buffer - GUARD - written))
        fail("a byte outside of the result changed");
}

int main(int argc, char **argv) {
    unsigned long calls = argc > 1 ? strtoul(argv[1], NULL, 10) : 10000;
    state = argc > 2 ? strtoull(argv[2], NULL, 10) : 57;
    fanlightnard_options *options = options_at_end();
    for (unsigned long i = 0; i < calls; i++) one_call(options);
    printf("damaged: %lu calls, %lu succeeded; by error", calls, counts[0]);
    for (int i = 1; i < 12; i++) printf(" %lu", counts[i]);
    printf("; %lu with a wrong size of the options\n", wrong_sizes);
    return calls >= 1000 && wrong_sizes == 0;
}
