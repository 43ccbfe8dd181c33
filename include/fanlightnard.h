/* fanlightnard: text tables whose edges line up whatever the cells contain.
 *
 *     const char text[] = "CityPeopleBeijing21893095Vaduz5774";
 *     const size_t ends[] = {4, 10, 17, 25, 30, 34};
 *     const uint8_t align[] = {FANLIGHTNARD_LEFT, FANLIGHTNARD_RIGHT};
 *     fanlightnard_cells cells = {text, sizeof text - 1, ends, 6, 3, 2};
 *     fanlightnard_options options = FANLIGHTNARD_OPTIONS;
 *     options.align = align;
 *     options.align_len = 2;
 *     ptrdiff_t len = fanlightnard_format(&cells, &options, NULL, 0);
 *     char *table = len < 0 ? NULL : malloc((size_t)len + 1);
 *     if (table) {
 *         fanlightnard_format(&cells, &options, table, (size_t)len);
 *         table[len] = '\0';
 *         puts(table);
 *         free(table);
 *     } else if (len < 0) {
 *         fprintf(stderr, "%s\n", fanlightnard_error_text(len));
 *     }
 *
 * prints
 *
 *     ╭─────────┬──────────╮
 *     │ City    │   People │
 *     ├─────────┼──────────┤
 *     │ Beijing │ 21893095 │
 *     │ Vaduz   │     5774 │
 *     ╰─────────┴──────────╯
 *
 * Text: a text is a pointer to UTF-8 and its length in bytes. It needs no byte 0 at its end. Each
 * pointer whose length is 0 may be null.
 *
 * Buffers: a call that fills a buffer returns the number of bytes that the whole result has. If the
 * buffer is smaller, nothing is written: call again with a larger one. Bytes behind the result stay
 * as they are, and no byte 0 is added. A buffer must not overlap anything else that is passed.
 *
 * Errors: a negative result is one of `fanlightnard_error`. The buffer is unchanged then. No call
 * aborts or prints, and each leaves errno as it is. A writer of yours may set it.
 *
 * Ownership: a call reads what it is passed and keeps nothing. It calls malloc, realloc and free,
 * and has freed everything when it returns.
 *
 * Threads: any number of threads may call at the same time, as long as no thread changes what
 * another passes. Don't call from a signal handler, nor in the forked child of a process with
 * threads.
 */
#ifndef FANLIGHTNARD_H
#define FANLIGHTNARD_H

#include <stddef.h>
#include <stdint.h>

#define FANLIGHTNARD_VERSION "0.1.0"

#ifdef __cplusplus
extern "C" {
#endif

/* Why a call failed. */
typedef enum fanlightnard_error {
    FANLIGHTNARD_MEMORY = -1,       /* an allocation failed */
    FANLIGHTNARD_RANGE = -2,        /* a length or a total is out of range */
    FANLIGHTNARD_NO_TEXT = -3,      /* a text isn't UTF-8 */
    FANLIGHTNARD_NO_STYLE = -4,     /* `style` is none of `fanlightnard_style` */
    FANLIGHTNARD_NO_FIT = -5,       /* `fit` or `order` is none of its values */
    FANLIGHTNARD_BAD_ENDS = -6,     /* `ends` decrease, split a character, or don't end with the text */
    FANLIGHTNARD_BAD_COUNTS = -7,   /* `ends_len` isn't `rows` times `columns`, `align_len` is greater
                                       than `columns`, or there are rows without columns */
    FANLIGHTNARD_NO_ALIGN = -8,     /* an alignment is none of `fanlightnard_align` */
    FANLIGHTNARD_NULL_POINTER = -9, /* a pointer is null, and its length isn't 0 */
    FANLIGHTNARD_BAD_OPTIONS = -10, /* `size` is that of no version of the options that this library
                                       knows, or `header` isn't 0 or 1 */
    FANLIGHTNARD_STOPPED = -11      /* a writer returned something else than 0 */
} fanlightnard_error;

/* The borders of a table. */
typedef enum fanlightnard_style {
    FANLIGHTNARD_ASCII = 0,              /* + - | with lines between all rows */
    FANLIGHTNARD_MODERN = 1,             /* ┌ ─ │ with lines between all rows */
    FANLIGHTNARD_SHARP = 2,              /* ┌ ─ │ with a line below the header */
    FANLIGHTNARD_ROUNDED = 3,            /* ╭ ─ │ with a line below the header */
    FANLIGHTNARD_MODERN_ROUNDED = 4,     /* ╭ ─ │ with lines between all rows */
    FANLIGHTNARD_ASCII_ROUNDED = 5,      /* . - | with no line between rows */
    FANLIGHTNARD_EXTENDED = 6,           /* ╔ ═ ║ with lines between all rows */
    FANLIGHTNARD_MARKDOWN = 7,           /* a table of Markdown */
    FANLIGHTNARD_PSQL = 8,               /* as psql draws them */
    FANLIGHTNARD_RE_STRUCTURED_TEXT = 9, /* a simple table of reStructuredText */
    FANLIGHTNARD_BLANK = 10,             /* spaces between columns */
    FANLIGHTNARD_EMPTY = 11              /* nothing */
} fanlightnard_style;

/* How a table that is wider than `width` is fitted into it. */
typedef enum fanlightnard_fit {
    FANLIGHTNARD_WHOLE = 0,      /* not at all */
    FANLIGHTNARD_WRAP = 1,       /* cells are wrapped at any character */
    FANLIGHTNARD_WRAP_WORDS = 2, /* cells are wrapped between words, where possible */
    FANLIGHTNARD_TRUNCATE = 3    /* cells are truncated */
} fanlightnard_fit;

/* Which columns shrink first. */
typedef enum fanlightnard_order {
    FANLIGHTNARD_EACH_IN_TURN = 0,
    FANLIGHTNARD_NARROWEST_FIRST = 1,
    FANLIGHTNARD_WIDEST_FIRST = 2,
    FANLIGHTNARD_FROM_LEFT = 3,
    FANLIGHTNARD_FROM_RIGHT = 4
} fanlightnard_order;

/* Where the text of a cell is placed. */
typedef enum fanlightnard_align {
    FANLIGHTNARD_LEFT = 0,
    FANLIGHTNARD_RIGHT = 1,
    FANLIGHTNARD_CENTER = 2
} fanlightnard_align;

/* In the place of an end: the cell has no value. The options say what is shown there. */
#define FANLIGHTNARD_NULL SIZE_MAX

/* The cells of a table, row by row. A cell can hold any text, with line feeds and tabs. */
typedef struct fanlightnard_cells {
    const char *text;   /* the texts of all cells, one behind the other */
    size_t text_len;    /* in bytes */
    const size_t *ends; /* for each cell the offset of the byte behind it, or FANLIGHTNARD_NULL */
    size_t ends_len;    /* the number of cells: `rows` times `columns` */
    size_t rows;        /* with the header */
    size_t columns;
} fanlightnard_cells;

/* How a table looks. Begin with FANLIGHTNARD_OPTIONS, and change what you want. */
typedef struct fanlightnard_options {
    size_t size;          /* sizeof(fanlightnard_options). Later versions may append fields. A
                             library knows the sizes of its own version and of those before it. Any
                             other size is FANLIGHTNARD_BAD_OPTIONS, and no other field is read */
    uint32_t style;       /* a fanlightnard_style */
    uint32_t fit;         /* a fanlightnard_fit */
    uint32_t order;       /* a fanlightnard_order */
    uint32_t header;      /* 1 if the first row is a header, else 0: then no line follows it alone.
                             If the header is the only row and the style has a bottom line, that
                             line follows it, and no other */
    size_t width;         /* the total width to fit into, in columns; unused by FANLIGHTNARD_WHOLE */
    const uint8_t *align; /* a fanlightnard_align for each of the first columns; others are left */
    size_t align_len;
    const char *null;     /* what a cell without a value shows; only cells can be without one */
    size_t null_len;      /* in bytes */
} fanlightnard_options;

/* Rounded borders, a header, columns aligned left, as wide as the cells are, and nothing shown in a cell
 * without a value. A null pointer means the same. */
#define FANLIGHTNARD_OPTIONS                                                                          \
    { sizeof(fanlightnard_options), FANLIGHTNARD_ROUNDED, FANLIGHTNARD_WHOLE,                          \
      FANLIGHTNARD_WIDEST_FIRST, 1, 0, NULL, 0, NULL, 0 }

/* Gets a block of a table, which ends with a character. Returns 0 to go on, and anything else to
 * stop. `context` is what was passed beside it. The block is only valid during the call. */
typedef int (*fanlightnard_writer)(void *context, const char *block, size_t len);

/* Formats a table of cells into a buffer. Returns the length of the table in bytes, or an error. */
ptrdiff_t fanlightnard_format(const fanlightnard_cells *cells, const fanlightnard_options *options,
                              char *buffer, size_t buffer_len);

/* Formats a table of cells, and passes it to a writer in blocks of at most 64 KiB. The table is
 * complete in memory before the first block. Returns 0, or an error: nothing was written, unless it
 * is FANLIGHTNARD_STOPPED. */
int fanlightnard_write(const fanlightnard_cells *cells, const fanlightnard_options *options,
                       fanlightnard_writer writer, void *context);

/* The same for a text that has a row on each line and a tab between cells. Short rows are filled up
 * with empty cells. There may be more alignments than columns. */
ptrdiff_t fanlightnard_format_text(const char *text, size_t text_len,
                                   const fanlightnard_options *options, char *buffer,
                                   size_t buffer_len);
int fanlightnard_write_text(const char *text, size_t text_len, const fanlightnard_options *options,
                            fanlightnard_writer writer, void *context);

/* Returns the width of a text in a terminal, in columns: that of its widest line. */
ptrdiff_t fanlightnard_measure(const char *text, size_t text_len);

/* Truncates a text to a width in columns. Returns the length of the result in bytes, or an error. */
ptrdiff_t fanlightnard_truncate(const char *text, size_t text_len, size_t columns, char *buffer,
                                size_t buffer_len);

/* Wraps a text to lines of at most a width in columns; if `words` isn't 0, between words where
 * possible. Returns the length of the result in bytes, or an error. */
ptrdiff_t fanlightnard_wrap(const char *text, size_t text_len, size_t columns, int words,
                            char *buffer, size_t buffer_len);

/* Returns a static text that says what an error means. Any other number has one, too. */
const char *fanlightnard_error_text(ptrdiff_t error);

/* Returns the version of the library, which may differ from FANLIGHTNARD_VERSION of the header. */
const char *fanlightnard_version(void);

#ifdef __cplusplus
}
#endif

#endif
