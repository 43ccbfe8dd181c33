/* What C calls. These functions check pointers, lengths and the size of the options, which only C can
 * see, and pass values to the proved functions of crates/tabled_c. They decide nothing about a table. */
#include "fanlightnard.h"

#include <errno.h>
#include <stdbool.h>
#include <stdlib.h>
#include <string.h>

/* ---- the proved functions */

/* `PackedCells` and `Layout` of crates/tabled_c. A slice is a pointer, which isn't null, and a length. */
struct packed {
    const char *text;
    size_t text_len;
    const size_t *ends;
    size_t ends_len;
    size_t rows, columns;
};
struct layout {
    const uint8_t *align;
    size_t align_len;
    const char *null;
    size_t null_len;
    size_t width;
    uint32_t style, fit, order;
    bool header;
};

ptrdiff_t fanlightnard_core_cells(const struct packed *cells, const struct layout *layout, char *buffer,
                                  size_t buffer_len);
ptrdiff_t fanlightnard_core_text(const char *text, size_t text_len, const struct layout *layout,
                                 char *buffer, size_t buffer_len);
ptrdiff_t fanlightnard_core_measure(const char *text, size_t text_len);
ptrdiff_t fanlightnard_core_truncate(const char *text, size_t text_len, size_t columns, char *buffer,
                                     size_t buffer_len);
ptrdiff_t fanlightnard_core_wrap(const char *text, size_t text_len, size_t columns, bool words,
                                 char *buffer, size_t buffer_len);

/* ---- what only C can see */

/* The first version of the options ends with `null_len`. */
#define FIRST_SIZE (offsetof(fanlightnard_options, null_len) + sizeof(size_t))

/* The greatest block that a writer gets, in bytes. */
#define BLOCK ((size_t)65536)

/* Checks a pointer to `len` elements of `size` bytes each. Returns 0 or an error. */
static int check(const void *pointer, size_t len, size_t size) {
    if (len > PTRDIFF_MAX / size) return FANLIGHTNARD_RANGE;
    return !pointer && len ? FANLIGHTNARD_NULL_POINTER : 0;
}

/* What a pointer of no elements points to if it is null. Nothing reads or writes it. */
static size_t nothing;

static const char *text_at(const char *text) { return text ? text : (const char *)&nothing; }
static char *buffer_at(char *buffer) { return buffer ? buffer : (char *)&nothing; }

/* Copies the options into those of this version. Returns 0 or an error. */
static int read_options(const fanlightnard_options *given, fanlightnard_options *options) {
    const fanlightnard_options usual = FANLIGHTNARD_OPTIONS;
    *options = usual;
    if (!given) return 0;
    /* A greater size may be an error of the caller: the bytes behind the known fields aren't read. */
    const size_t size = given->size;
    if (size < FIRST_SIZE || size > sizeof *options) return FANLIGHTNARD_BAD_OPTIONS;
    memcpy(options, given, size);
    if (options->header > 1) return FANLIGHTNARD_BAD_OPTIONS;
    const int error = check(options->align, options->align_len, 1);
    return error ? error : check(options->null, options->null_len, 1);
}

static struct layout layout_of(const fanlightnard_options *options) {
    const struct layout layout = {
        options->align ? options->align : (const uint8_t *)&nothing,
        options->align_len,
        text_at(options->null),
        options->null_len,
        options->width,
        options->style,
        options->fit,
        options->order,
        options->header == 1,
    };
    return layout;
}

/* Sets errno back to what it was before a call, which may have used malloc, realloc and free. */
static ptrdiff_t restore(int old_errno, ptrdiff_t result) {
    errno = old_errno;
    return result;
}

/* ---- tables */

ptrdiff_t fanlightnard_format(const fanlightnard_cells *cells, const fanlightnard_options *options,
                              char *buffer, size_t buffer_len) {
    fanlightnard_options read;
    int error = cells ? 0 : FANLIGHTNARD_NULL_POINTER;
    if (!error) error = read_options(options, &read);
    if (!error) error = check(cells->text, cells->text_len, 1);
    if (!error) error = check(cells->ends, cells->ends_len, sizeof(size_t));
    if (!error) error = check(buffer, buffer_len, 1);
    if (error) return error;
    const struct packed packed = {
        text_at(cells->text),
        cells->text_len,
        cells->ends ? cells->ends : &nothing,
        cells->ends_len,
        cells->rows,
        cells->columns,
    };
    const struct layout layout = layout_of(&read);
    const int old_errno = errno;
    return restore(old_errno, fanlightnard_core_cells(&packed, &layout, buffer_at(buffer), buffer_len));
}

ptrdiff_t fanlightnard_format_text(const char *text, size_t text_len,
                                   const fanlightnard_options *options, char *buffer,
                                   size_t buffer_len) {
    fanlightnard_options read;
    int error = read_options(options, &read);
    if (!error) error = check(text, text_len, 1);
    if (!error) error = check(buffer, buffer_len, 1);
    if (error) return error;
    const struct layout layout = layout_of(&read);
    const int old_errno = errno;
    return restore(old_errno, fanlightnard_core_text(text_at(text), text_len, &layout, buffer_at(buffer),
                                                     buffer_len));
}

/* ---- writers */

/* A table of cells, or of a text if `cells` is null. */
struct source {
    const fanlightnard_cells *cells;
    const char *text;
    size_t text_len;
    const fanlightnard_options *options;
};

static ptrdiff_t format(const struct source *source, char *buffer, size_t buffer_len) {
    if (source->cells) return fanlightnard_format(source->cells, source->options, buffer, buffer_len);
    return fanlightnard_format_text(source->text, source->text_len, source->options, buffer, buffer_len);
}

/* Passes a table to a writer. A block ends before a byte that continues a character. */
static int write_blocks(const char *table, size_t len, fanlightnard_writer writer, void *context) {
    while (len) {
        size_t block = len < BLOCK ? len : BLOCK;
        while (block < len && ((unsigned char)table[block] & 0xc0) == 0x80) block--;
        if (writer(context, table, block)) return FANLIGHTNARD_STOPPED;
        table += block;
        len -= block;
    }
    return 0;
}

/* malloc and free that leave errno. */
static char *allocate(size_t len) {
    const int old_errno = errno;
    char *bytes = malloc(len);
    errno = old_errno;
    return bytes;
}

static void release(char *bytes) {
    const int old_errno = errno;
    free(bytes);
    errno = old_errno;
}

/* Formats once if the first buffer is large enough, which most are, and else twice. */
static int write_table(const struct source *source, size_t bytes, size_t cells,
                       fanlightnard_writer writer, void *context) {
    if (!writer) return FANLIGHTNARD_NULL_POINTER;
    /* A guess: the text twice, and the borders and padding of each cell. */
    size_t len = bytes < PTRDIFF_MAX / 8 && cells < PTRDIFF_MAX / 64 ? 2 * bytes + 16 * cells + 4096 : 4096;
    char *table = allocate(len);
    if (!table) return FANLIGHTNARD_MEMORY;
    ptrdiff_t needed = format(source, table, len);
    if (needed > 0 && (size_t)needed > len) {
        release(table);
        table = allocate((size_t)needed);
        if (!table) return FANLIGHTNARD_MEMORY;
        needed = format(source, table, (size_t)needed);
    }
    int error = needed < 0 ? (int)needed : write_blocks(table, (size_t)needed, writer, context);
    release(table);
    return error;
}

int fanlightnard_write(const fanlightnard_cells *cells, const fanlightnard_options *options,
                       fanlightnard_writer writer, void *context) {
    if (!cells) return FANLIGHTNARD_NULL_POINTER;
    const struct source source = {cells, NULL, 0, options};
    return write_table(&source, cells->text_len, cells->ends_len, writer, context);
}

int fanlightnard_write_text(const char *text, size_t text_len, const fanlightnard_options *options,
                            fanlightnard_writer writer, void *context) {
    const struct source source = {NULL, text, text_len, options};
    return write_table(&source, text_len, text_len / 8, writer, context);
}

/* ---- texts */

ptrdiff_t fanlightnard_measure(const char *text, size_t text_len) {
    int error = check(text, text_len, 1);
    return error ? error : fanlightnard_core_measure(text_at(text), text_len);
}

ptrdiff_t fanlightnard_truncate(const char *text, size_t text_len, size_t columns, char *buffer,
                                size_t buffer_len) {
    int error = check(text, text_len, 1);
    if (!error) error = check(buffer, buffer_len, 1);
    if (error) return error;
    const int old_errno = errno;
    return restore(old_errno, fanlightnard_core_truncate(text_at(text), text_len, columns, buffer_at(buffer),
                                                         buffer_len));
}

ptrdiff_t fanlightnard_wrap(const char *text, size_t text_len, size_t columns, int words, char *buffer,
                            size_t buffer_len) {
    int error = check(text, text_len, 1);
    if (!error) error = check(buffer, buffer_len, 1);
    if (error) return error;
    const int old_errno = errno;
    return restore(old_errno, fanlightnard_core_wrap(text_at(text), text_len, columns, words != 0,
                                                     buffer_at(buffer), buffer_len));
}

/* ---- words */

const char *fanlightnard_error_text(ptrdiff_t error) {
    switch (error) {
    case FANLIGHTNARD_MEMORY: return "an allocation failed";
    case FANLIGHTNARD_RANGE: return "a length or a total is out of range";
    case FANLIGHTNARD_NO_TEXT: return "the text is not UTF-8";
    case FANLIGHTNARD_NO_STYLE: return "there is no such style";
    case FANLIGHTNARD_NO_FIT: return "there is no such way to fit a table, or no such order";
    case FANLIGHTNARD_BAD_ENDS: return "the ends of the cells decrease, split a character, or don't end with the text";
    case FANLIGHTNARD_BAD_COUNTS: return "the counts of rows, columns, cells and alignments don't go together";
    case FANLIGHTNARD_NO_ALIGN: return "there is no such alignment";
    case FANLIGHTNARD_NULL_POINTER: return "a pointer is null, and its length is not 0";
    case FANLIGHTNARD_BAD_OPTIONS: return "the options have an unknown size, or header isn't 0 or 1";
    case FANLIGHTNARD_STOPPED: return "the writer stopped";
    default: return error < 0 ? "unknown error" : "no error";
    }
}

const char *fanlightnard_version(void) { return FANLIGHTNARD_VERSION; }
