/* What the controller does when a run stops: decode the protocol's map, look up all positions of the run's log
 * in one call, and print the source step of each; the last is where the run stopped, and the piece of the map
 * that says so comes with it. A damaged map is refused with a message that says what to do.
 *
 *     stop MAP LOG
 *
 * MAP has the counts of sources and names on its first line, and the mappings after it, as samples/lysis.txt.
 * Each line of LOG is HH:MM:SS bundle.js:LINE:COLUMN and ends with a newline, as in samples/lysis.log. Lines and
 * columns count from 1 there, as JavaScript engines count them, and so do those that are printed; the library
 * counts from 0. Columns count UTF-16 units.
 * Ends with 0: the step where the run stopped was printed; 1: it has none; 2: the map, the log or the call was
 * refused. */
#include <stdio.h>
#include <stdlib.h>
#include <string.h>
#include "peghayrick.h"

/* A decimal number of 32 bits, as long as s is nothing else: digits and then `end`. Where it ends, or NULL. */
static const char *number(const char *s, char end, uint32_t *n) {
    uint64_t v = 0;
    if (*s < '0' || *s > '9') return NULL;
    for (; *s >= '0' && *s <= '9'; s++) {
        v = 10 * v + (uint64_t)(*s - '0');
        if (v > 4294967295u) return NULL;
    }
    *n = (uint32_t)v;
    return *s == end ? s + 1 : NULL;
}

/* A whole file, with a 0 behind it; NULL where it cannot be read. */
static char *whole(const char *path, size_t *len) {
    FILE *f = fopen(path, "rb");
    char *bytes = NULL;
    size_t room = 4096, read = 0, got = 1;
    if (f == NULL) return NULL;
    while (got != 0) {
        char *more = realloc(bytes, room *= 2);
        if (more == NULL) break;
        bytes = more;
        got = fread(bytes + read, 1, room - read - 1, f);
        read += got;
    }
    if (got != 0 || ferror(f)) {
        free(bytes);
        bytes = NULL;
    } else {
        bytes[read] = 0;
    }
    fclose(f);
    *len = read;
    return bytes;
}

/* Prints the line of mappings that a segment stands in, from ';' to ';', and marks the segment under it. Each byte takes one place:
 * one that cannot be shown is printed as '?'. */
static void show(const char *text, size_t len, size_t segment) {
    size_t begin = segment, end = segment;
    while (begin > 0 && text[begin - 1] != ';') begin--;
    printf("mappings  ");
    for (size_t i = begin; i < len && text[i] != ';'; i++) putchar(text[i] > ' ' && text[i] <= '~' ? text[i] : '?');
    printf("\n          ");
    for (; begin < segment; begin++) putchar(' ');
    for (; end < len && text[end] != ',' && text[end] != ';'; end++) putchar('^');
    printf("\n");
}

/* The position of a line of the log, counted from 0. Where the next line begins, or NULL where this one is not of
 * the form: then it may be cut short, and what is left of it is no position. */
static const char *position(const char *s, uint32_t *line, uint32_t *col) {
    for (const char *form = "00:00:00 bundle.js:"; *form != 0; form++, s++)   /* a 0 stands for any digit */
        if (*form == '0' ? *s < '0' || *s > '9' : *s != *form) return NULL;
    if ((s = number(s, ':', line)) == NULL || (s = number(s, '\n', col)) == NULL) return NULL;
    if (*line == 0 || *col == 0) return NULL;
    --*line;
    --*col;
    return s;
}

/* The positions of the log, two numbers each, and how many there are; NULL, and a message, where there is none. */
static uint32_t *positions_of(const char *log, size_t len, size_t *count) {
    const char *s = log;
    size_t lines = 1;   /* one more than there are newlines: the last line may have none */
    for (size_t i = 0; i < len; i++) lines += log[i] == '\n';
    uint32_t *positions = malloc(2 * lines * sizeof *positions);
    if (positions == NULL) {
        fprintf(stderr, "there is no memory for the log: hand in a shorter one\n");
        return NULL;
    }
    for (*count = 0; s != NULL && s < log + len; ++*count) s = position(s, positions + 2 * *count, positions + 2 * *count + 1);
    if (s != NULL && *count != 0) return positions;
    if (s != NULL) fprintf(stderr, "the log has no lines: export it again\n");
    else fprintf(stderr, "line %zu of the log is not HH:MM:SS bundle.js:LINE:COLUMN, or is cut short: export it again\n", *count);
    free(positions);
    return NULL;
}

/* Prints each line of the log with its step, and the piece of the mappings for the last. Whether that has a step. */
static int print(const char *log, const uint32_t *found, size_t count, const uint32_t *table, const char *text, size_t len) {
    pgk_token t = { 0, 0, 0, 0, PGK_NONE, PGK_NONE, PGK_NONE };
    for (size_t i = 0; i < count; i++) {
        size_t end = strcspn(log, "\n");
        fputs(i + 1 == count ? "stop " : "     ", stdout);
        fwrite(log, 1, end, stdout);
        log += end + 1;
        t.source_id = PGK_NONE;
        if (found[i] != PGK_NONE) memcpy(&t, table + PGK_WIDTH * (size_t)found[i], sizeof t);
        if (t.source_id == PGK_NONE) {   /* no token, or one whose source line and column say nothing */
            printf(" has no step in the source\n");
            continue;
        }
        printf(" is at source %u, line %llu, column %llu", t.source_id, t.src_line + 1ull, t.src_col + 1ull);
        if (t.name_id != PGK_NONE) printf(", name %u", t.name_id);
        printf("\n");
    }
    if (t.source_id == PGK_NONE) return 0;
    show(text, len, t.segment);
    return 1;
}

/* Prints the steps of the log by the map, which has len bytes. */
static int steps(const char *map, size_t len, const char *log, const uint32_t *positions, size_t count) {
    uint32_t sources, names;
    const char *text = number(map, ' ', &sources);
    if (text == NULL || (text = number(text, '\n', &names)) == NULL) {
        fprintf(stderr, "the map has no counts on its first line: export it again\n");
        return 2;
    }
    len -= (size_t)(text - map);

    size_t size = pgk_table_size((const uint8_t *)text, len);
    uint32_t *table = calloc(size != 0 ? size : 1, sizeof *table);   /* never null, also where nothing is needed */
    uint32_t *found = calloc(count, sizeof *found);
    pgk_decoded d;
    pgk_answer a;
    int status = 2;
    /* The decode that names no mode is checked: no position that loses bits comes to the screen. The quick lookup halves
     * where the map is sorted, as usual ones are, and has the same answers where it is not. */
    if (table == NULL || found == NULL) {
        fprintf(stderr, "there is no memory for the map: load a smaller one\n");
    } else if ((d = pgk_decode((const uint8_t *)text, len, sources, names, table, size)).code != PGK_DONE) {
        fprintf(stderr, "the map is refused at byte %llu: %s (code %llu, number %llu)\n",
            (unsigned long long)d.offset, pgk_words(d.code), (unsigned long long)d.code, (unsigned long long)d.number);
    } else if ((a = pgk_lookup_many_quick(table, PGK_WIDTH * d.tokens, positions, 2 * count, found, count)).code != PGK_DONE) {
        fprintf(stderr, "the lookup is refused: %s (code %llu)\n", pgk_words(a.code), (unsigned long long)a.code);
    } else {
        status = print(log, found, count, table, text, len) ? 0 : 1;
    }
    free(found);
    free(table);
    return status;
}

int main(int argc, char **argv) {
    if (argc != 3) {
        fprintf(stderr, "usage: stop MAP LOG\n");
        return 2;
    }
    if (pgk_version() != PGK_VERSION) {
        fprintf(stderr, "libpeghayrick.a is not of version " PGK_VERSION_TEXT ": build this program again\n");
        return 2;
    }
    size_t len, log_len, count;
    char *map = whole(argv[1], &len), *log = whole(argv[2], &log_len);
    uint32_t *positions = NULL;
    int status = 2;
    if (map == NULL) fprintf(stderr, "the map cannot be opened: check the path\n");
    else if (log == NULL) fprintf(stderr, "the log cannot be opened: check the path\n");
    else if ((positions = positions_of(log, log_len, &count)) != NULL) status = steps(map, len, log, positions, count);
    free(positions);
    free(log);
    free(map);
    return status;
}
