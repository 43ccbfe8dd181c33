/* Calls the library from C. Expected values are worked out by hand. */
#include "fanlightnard.h"

#include <stdio.h>
#include <stdlib.h>
#include <string.h>

static int failures = 0;
static int checks = 0;

static void check(int holds, const char *what) {
    checks++;
    if (!holds) {
        failures++;
        fprintf(stderr, "c: %s\n", what);
    }
}

/* ---- the example of the header */

static char *example(void) {
    const char text[] = "CityPeopleBeijing21893095Vaduz5774";
    const size_t ends[] = {4, 10, 17, 25, 30, 34};
    const uint8_t align[] = {FANLIGHTNARD_LEFT, FANLIGHTNARD_RIGHT};
    fanlightnard_cells cells = {text, sizeof text - 1, ends, 6, 3, 2};
    fanlightnard_options options = FANLIGHTNARD_OPTIONS;
    options.align = align;
    options.align_len = 2;
    ptrdiff_t len = fanlightnard_format(&cells, &options, NULL, 0);
    char *table = len < 0 ? NULL : (char *)malloc((size_t)len + 1);
    if (table) {
        fanlightnard_format(&cells, &options, table, (size_t)len);
        table[len] = '\0';
    } else if (len < 0) {
        fprintf(stderr, "%s\n", fanlightnard_error_text(len));
    }
    return table;
}

/* ---- tables of cells */

/* Cells that end at bytes 0. */
static fanlightnard_cells cells_of(const char *const *texts, size_t rows, size_t columns, char *text, size_t *ends) {
    size_t len = 0;
    for (size_t i = 0; i < rows * columns; i++) {
        memcpy(text + len, texts[i], strlen(texts[i]));
        len += strlen(texts[i]);
        ends[i] = len;
    }
    fanlightnard_cells cells = {text, len, ends, rows * columns, rows, columns};
    return cells;
}

/* A picture comes into a buffer of its length, and into a longer one, whose end stays. One that is too small stays. */
static void formats(const fanlightnard_cells *cells, const fanlightnard_options *options, const char *picture) {
    size_t len = strlen(picture);
    char *buffer = (char *)malloc(len + 3);
    if (!buffer) exit(2);
    check(fanlightnard_format(cells, options, NULL, 0) == (ptrdiff_t)len, "the length of a table");
    memset(buffer, '#', len + 3);
    check(len == 0 || fanlightnard_format(cells, options, buffer, len - 1) == (ptrdiff_t)len, "a small buffer");
    check(memcmp(buffer, "###", 3) == 0, "a small buffer stays");
    check(fanlightnard_format(cells, options, buffer, len) == (ptrdiff_t)len, "a buffer of the length");
    check(memcmp(buffer, picture, len) == 0 && memcmp(buffer + len, "###", 3) == 0, "a table is its picture");
    memset(buffer, '#', len + 3);
    check(fanlightnard_format(cells, options, buffer, len + 3) == (ptrdiff_t)len, "a longer buffer");
    check(memcmp(buffer, picture, len) == 0 && memcmp(buffer + len, "###", 3) == 0, "the end of a buffer stays");
    free(buffer);
}

static void tables(void) {
    char text[200];
    size_t ends[16];
    const char *const people[] = {"Name", "Note", "Ada", "first program"};
    fanlightnard_cells cells = cells_of(people, 2, 2, text, ends);
    formats(&cells, NULL,
            "╭──────┬───────────────╮\n"
            "│ Name │ Note          │\n"
            "├──────┼───────────────┤\n"
            "│ Ada  │ first program │\n"
            "╰──────┴───────────────╯");
    fanlightnard_options options = FANLIGHTNARD_OPTIONS;
    options.style = FANLIGHTNARD_MODERN;
    options.fit = FANLIGHTNARD_WRAP_WORDS;
    options.width = 18;
    formats(&cells, &options,
            "┌──────┬─────────┐\n"
            "│ Name │ Note    │\n"
            "├──────┼─────────┤\n"
            "│ Ada  │ first   │\n"
            "│      │ program │\n"
            "└──────┴─────────┘");
    options.style = FANLIGHTNARD_PSQL;
    options.fit = FANLIGHTNARD_TRUNCATE;
    options.width = 16;
    formats(&cells, &options,
            " Name | Note    \n"
            "------+---------\n"
            " Ada  | first p ");
    options.header = 0;
    formats(&cells, &options,
            " Name | Note    \n"
            " Ada  | first p ");

    const char *const odd[] = {"tab\there", "line\nfeed", "", "北京"};
    const uint8_t align[] = {FANLIGHTNARD_CENTER, FANLIGHTNARD_RIGHT};
    fanlightnard_options ascii = FANLIGHTNARD_OPTIONS;
    ascii.style = FANLIGHTNARD_ASCII;
    ascii.align = align + 1;
    ascii.align_len = 1;
    cells = cells_of(odd + 1, 3, 1, text, ends);
    formats(&cells, &ascii,
            "+------+\n"
            "| line |\n"
            "| feed |\n"
            "+------+\n"
            "|      |\n"
            "+------+\n"
            "| 北京 |\n"
            "+------+");
    ascii.align = align;
    ascii.align_len = 2;
    const char *const sides[] = {"abc", "abc", "b", "c"};
    cells = cells_of(sides, 2, 2, text, ends);
    formats(&cells, &ascii,
            "+-----+-----+\n"
            "| abc | abc |\n"
            "+-----+-----+\n"
            "|  b  |   c |\n"
            "+-----+-----+");
    cells = cells_of(odd, 1, 1, text, ends);
    check(fanlightnard_format(&cells, NULL, NULL, 0) > 0, "a cell may hold a tab");

    /* The second and the third cell have no value, and the fourth is the empty text. */
    const size_t some[] = {1, FANLIGHTNARD_NULL, FANLIGHTNARD_NULL, 1, 2, FANLIGHTNARD_NULL};
    const fanlightnard_cells without = {"ab", 2, some, 6, 3, 2};
    fanlightnard_options shown = FANLIGHTNARD_OPTIONS;
    shown.style = FANLIGHTNARD_PSQL;
    formats(&without, &shown,
            " a |  \n"
            "---+--\n"
            "   |  \n"
            " b |  ");
    shown.null = "n/a";
    shown.null_len = 3;
    formats(&without, &shown,
            " a   | n/a \n"
            "-----+-----\n"
            " n/a |     \n"
            " b   | n/a ");
    const size_t only[] = {FANLIGHTNARD_NULL};
    const fanlightnard_cells nothing = {NULL, 0, only, 1, 1, 1};
    formats(&nothing, &shown, " n/a \n-----");

    cells = cells_of(sides, 1, 2, text, ends);
    formats(&cells, NULL,
            "╭─────┬─────╮\n"
            "│ abc │ abc │\n"
            "╰─────┴─────╯");
    const fanlightnard_cells none = {NULL, 0, NULL, 0, 0, 0};
    formats(&none, NULL, "");
    const fanlightnard_cells no_rows = {NULL, 0, NULL, 0, 0, 3};
    formats(&no_rows, NULL, "");
}

/* ---- errors */

static void fails(ptrdiff_t error, const fanlightnard_cells *cells, const fanlightnard_options *options) {
    char buffer[4] = {'#', '#', '#', '#'};
    check(fanlightnard_format(cells, options, buffer, 4) == error, fanlightnard_error_text(error));
    check(memcmp(buffer, "####", 4) == 0, "an error leaves the buffer");
}

static void errors(void) {
    const size_t ends[] = {1, 2};
    const size_t back[] = {2, 1};
    const size_t far[] = {1, 3};
    const uint8_t align[] = {FANLIGHTNARD_LEFT, 3};
    const fanlightnard_cells good = {"ab", 2, ends, 2, 1, 2};
    fanlightnard_cells cells = good;

    cells.text = "\xff" "b";
    fails(FANLIGHTNARD_NO_TEXT, &cells, NULL);
    cells.text = "\xc3\xa9";
    fails(FANLIGHTNARD_BAD_ENDS, &cells, NULL);
    cells = good;
    cells.ends = back;
    fails(FANLIGHTNARD_BAD_ENDS, &cells, NULL);
    cells.ends = far;
    fails(FANLIGHTNARD_BAD_ENDS, &cells, NULL);
    cells.text = "abcd";
    cells.text_len = 4;
    fails(FANLIGHTNARD_BAD_ENDS, &cells, NULL);

    cells = good;
    cells.rows = 2;
    fails(FANLIGHTNARD_BAD_COUNTS, &cells, NULL);
    cells.rows = SIZE_MAX;
    cells.columns = SIZE_MAX;
    fails(FANLIGHTNARD_BAD_COUNTS, &cells, NULL);
    const fanlightnard_cells no_columns = {NULL, 0, NULL, 0, 5, 0};
    fails(FANLIGHTNARD_BAD_COUNTS, &no_columns, NULL);

    cells = good;
    cells.text = NULL;
    fails(FANLIGHTNARD_NULL_POINTER, &cells, NULL);
    cells = good;
    cells.ends = NULL;
    fails(FANLIGHTNARD_NULL_POINTER, &cells, NULL);
    fails(FANLIGHTNARD_NULL_POINTER, NULL, NULL);
    cells = good;
    cells.text_len = SIZE_MAX;
    fails(FANLIGHTNARD_RANGE, &cells, NULL);
    cells = good;
    cells.ends_len = PTRDIFF_MAX / sizeof(size_t) + 1;
    fails(FANLIGHTNARD_RANGE, &cells, NULL);
    check(fanlightnard_format(&good, NULL, NULL, 1) == FANLIGHTNARD_NULL_POINTER, "a null buffer of a byte");

    fanlightnard_options options = FANLIGHTNARD_OPTIONS;
    options.style = 12;
    fails(FANLIGHTNARD_NO_STYLE, &good, &options);
    options.style = FANLIGHTNARD_ASCII;
    options.fit = 4;
    fails(FANLIGHTNARD_NO_FIT, &good, &options);
    options.fit = FANLIGHTNARD_WHOLE;
    options.order = 5;
    fails(FANLIGHTNARD_NO_FIT, &good, &options);
    options.order = FANLIGHTNARD_FROM_LEFT;
    options.header = 2;
    fails(FANLIGHTNARD_BAD_OPTIONS, &good, &options);
    options.header = 1;
    options.size -= 1;
    fails(FANLIGHTNARD_BAD_OPTIONS, &good, &options);
    options.size += 1;
    options.align = align;
    options.align_len = 2;
    fails(FANLIGHTNARD_NO_ALIGN, &good, &options);
    const uint8_t three[] = {FANLIGHTNARD_LEFT, FANLIGHTNARD_LEFT, FANLIGHTNARD_LEFT};
    options.align = three;
    options.align_len = 3;
    fails(FANLIGHTNARD_BAD_COUNTS, &good, &options);
    options.align = NULL;
    fails(FANLIGHTNARD_NULL_POINTER, &good, &options);
    options.align_len = 0;
    options.null_len = 1;
    fails(FANLIGHTNARD_NULL_POINTER, &good, &options);
    options.null = "\xff";
    fails(FANLIGHTNARD_NO_TEXT, &good, &options);
    options.null_len = SIZE_MAX;
    fails(FANLIGHTNARD_RANGE, &good, &options);
    const size_t early[] = {1, FANLIGHTNARD_NULL};
    cells = good;
    cells.ends = early;
    fails(FANLIGHTNARD_BAD_ENDS, &cells, NULL);

    /* The options of a later version are too large, even if it has appended 0. */
    struct { fanlightnard_options options; size_t later; } more = {FANLIGHTNARD_OPTIONS, 0};
    more.options.size = sizeof more;
    fails(FANLIGHTNARD_BAD_OPTIONS, &good, &more.options);
    more.options.size = SIZE_MAX;
    fails(FANLIGHTNARD_BAD_OPTIONS, &good, &more.options);
    more.options.size = sizeof more.options;
    check(fanlightnard_format(&good, &more.options, NULL, 0) > 0, "options of this version");

    check(strcmp(fanlightnard_error_text(1), "no error") == 0, "no error");
    check(strcmp(fanlightnard_error_text(-99), "unknown error") == 0, "an unknown error");
    check(strcmp(fanlightnard_version(), FANLIGHTNARD_VERSION) == 0, "the version");
}

/* ---- writers */

struct gathered {
    char *text;
    size_t len, blocks, stop_after;
};

static int gather(void *context, const char *block, size_t len) {
    struct gathered *all = (struct gathered *)context;
    all->text = (char *)realloc(all->text, all->len + len);
    if (!all->text) exit(2);
    memcpy(all->text + all->len, block, len);
    all->len += len;
    all->blocks++;
    check(((unsigned char)block[0] & 0xc0) != 0x80, "a block begins with a character");
    return all->blocks == all->stop_after;
}

static void writers(void) {
    const size_t rows = 5000;
    char *text = (char *)malloc(6 * rows);
    size_t *ends = (size_t *)malloc(rows * sizeof *ends);
    if (!text || !ends) exit(2);
    for (size_t i = 0; i < rows; i++) {
        memcpy(text + 6 * i, "北京", 6);
        ends[i] = 6 * (i + 1);
    }
    fanlightnard_cells cells = {text, 6 * rows, ends, rows, rows, 1};
    ptrdiff_t len = fanlightnard_format(&cells, NULL, NULL, 0);
    char *table = (char *)malloc(len > 0 ? (size_t)len : 1);
    if (!table) exit(2);
    fanlightnard_format(&cells, NULL, table, (size_t)len);
    struct gathered all = {NULL, 0, 0, 0};
    check(fanlightnard_write(&cells, NULL, gather, &all) == 0, "a writer gets a table");
    check(all.len == (size_t)len && memcmp(all.text, table, all.len) == 0, "the blocks are the table");
    check(all.blocks > 1, "a long table has several blocks");
    free(all.text);
    struct gathered few = {NULL, 0, 0, 1};
    check(fanlightnard_write(&cells, NULL, gather, &few) == FANLIGHTNARD_STOPPED, "a writer stops");
    check(few.blocks == 1, "a writer that stops isn't called again");
    free(few.text);
    struct gathered none = {NULL, 0, 0, 0};
    cells.rows = 1;
    check(fanlightnard_write(&cells, NULL, gather, &none) == FANLIGHTNARD_BAD_COUNTS, "an error writes nothing");
    check(fanlightnard_write(&cells, NULL, NULL, NULL) == FANLIGHTNARD_NULL_POINTER, "no writer");
    check(fanlightnard_write_text("a\tb", 3, NULL, gather, &none) == 0 && none.blocks == 1, "a text gets written");
    free(none.text);
    free(table);
    free(ends);
    free(text);
}

/* ---- texts */

static void texts(void) {
    char buffer[200];
    const char rows[] = "a\tb\nc\n";
    const char picture[] = "| a | b |\n|---|---|\n| c |   |";
    fanlightnard_options options = FANLIGHTNARD_OPTIONS;
    options.style = FANLIGHTNARD_MARKDOWN;
    check(fanlightnard_format_text(rows, sizeof rows - 1, &options, buffer, 200) == sizeof picture - 1, "rows of a text");
    check(memcmp(buffer, picture, sizeof picture - 1) == 0, "rows of a text are filled up");
    check(fanlightnard_format_text(NULL, 0, NULL, NULL, 0) == 0, "the empty text has no row");
    const uint8_t align[] = {FANLIGHTNARD_RIGHT, FANLIGHTNARD_CENTER, FANLIGHTNARD_RIGHT};
    const char sides[] = "abc\tabc\na\tb";
    const char aligned[] = "| abc | abc |\n|-----|-----|\n|   a |  b  |";
    options.align = align;
    options.align_len = 3;
    check(fanlightnard_format_text(sides, sizeof sides - 1, &options, buffer, 200) == sizeof aligned - 1, "rows of a text, aligned");
    check(memcmp(buffer, aligned, sizeof aligned - 1) == 0, "columns of a text are aligned");
    const uint8_t no_align[] = {3};
    options.align = no_align;
    options.align_len = 1;
    check(fanlightnard_format_text(sides, sizeof sides - 1, &options, buffer, 200) == FANLIGHTNARD_NO_ALIGN, "no alignment");
    const char framed[] = "╭───╮\n│ a │\n╰───╯";
    check(fanlightnard_format_text("a\n", 2, NULL, buffer, 200) == sizeof framed - 1, "one row of a text");
    check(memcmp(buffer, framed, sizeof framed - 1) == 0, "one row of a text keeps its bottom line");
    check(fanlightnard_format_text("\xff", 1, NULL, NULL, 0) == FANLIGHTNARD_NO_TEXT, "no text");
    check(fanlightnard_format_text(NULL, 1, NULL, NULL, 0) == FANLIGHTNARD_NULL_POINTER, "a null text");

    check(fanlightnard_measure("北京\nabc", strlen("北京\nabc")) == 4, "the widest line");
    check(fanlightnard_measure(NULL, 0) == 0, "the empty text has no column");
    check(fanlightnard_measure(NULL, 1) == FANLIGHTNARD_NULL_POINTER, "a null text to measure");
    check(fanlightnard_measure("\xc0", 1) == FANLIGHTNARD_NO_TEXT, "no text to measure");
    check(fanlightnard_measure("", SIZE_MAX) == FANLIGHTNARD_RANGE, "a length past the range");
    memset(buffer, '#', 16);
    check(fanlightnard_truncate("北京x", strlen("北京x"), 3, buffer, 5) == 6, "the length of a truncated text");
    check(memcmp(buffer, "######", 6) == 0, "a small buffer for a truncated text");
    check(fanlightnard_truncate("北京x", strlen("北京x"), 3, buffer, 16) == 6, "a truncated text");
    check(memcmp(buffer, "北\xef\xbf\xbd#", 7) == 0, "U+FFFD in the column that is left");
    check(fanlightnard_truncate(NULL, 0, 3, NULL, 0) == 0, "the empty text, truncated");
    check(fanlightnard_truncate("\xff", 1, 3, buffer, 16) == FANLIGHTNARD_NO_TEXT, "no text to truncate");
    memset(buffer, '#', 16);
    check(fanlightnard_wrap("one two", 7, 4, 2, buffer, 16) == 8, "a wrapped text");
    check(memcmp(buffer, "one \ntwo#", 9) == 0, "words are kept");
    check(fanlightnard_wrap("abcdef", 6, 4, 0, buffer, 16) == 7 && memcmp(buffer, "abcd\nef", 7) == 0, "words are broken");
    check(fanlightnard_wrap(NULL, 0, 4, 1, NULL, 0) == 0, "the empty text, wrapped");
    check(fanlightnard_wrap("\xff", 1, 4, 1, buffer, 16) == FANLIGHTNARD_NO_TEXT, "no text to wrap");
}

int main(void) {
    char *table = example();
    check(table && strcmp(table, "╭─────────┬──────────╮\n"
                                 "│ City    │   People │\n"
                                 "├─────────┼──────────┤\n"
                                 "│ Beijing │ 21893095 │\n"
                                 "│ Vaduz   │     5774 │\n"
                                 "╰─────────┴──────────╯") == 0, "the example of the header");
    free(table);
    tables();
    errors();
    writers();
    texts();
    printf("c: %d checks, %d failed\n", checks, failures);
    return failures != 0;
}
