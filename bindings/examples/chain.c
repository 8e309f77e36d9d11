/* What the controller does where the bundle was made in two steps: lysis.js of the sources, bundle.js of lysis.js, each
 * with a map. The bundle's map leads to lysis.js only, and the map of lysis.js from there to the sources. Composed,
 * they are one map, which leads from a position in the bundle to the source; the step of a stopped run is printed, with
 * its name, which may be a name of either map.
 *
 *     chain BUNDLE INPUT LINE COLUMN
 *
 * BUNDLE and INPUT are the two maps, as chain/bundle.txt and chain/lysis.txt: three lines, the sources, the names, both
 * parted by spaces, and the mappings. LINE and COLUMN are where the run stopped in bundle.js. They count from 1, as
 * JavaScript engines count them, and so do those that are printed; the library counts from 0. Columns count UTF-16
 * units.
 * Ends with 0: the step was printed; 1: there is none; 2: a map or the call was refused. */
#include <stdio.h>
#include <stdlib.h>
#include <string.h>
#include "peghayrick.h"

/* The words of a line, one after another without the spaces, and where each ends. */
typedef struct { char *text; size_t *ends, count; } list;

/* A map: its file, the lists and the mappings in it, and the table of its tokens, of so many numbers. */
typedef struct { char *file; list sources, names; char *mappings; size_t len; uint32_t *table; size_t numbers; } map;

/* Memory for so many things, never null but where there is none: the library takes no null, also where nothing is lent. */
static void *room(size_t count, size_t size) { return calloc(count != 0 ? count : 1, size); }

/* A decimal number from 1 to 4294967295, and nothing else. Whether it is one. */
static int number(const char *s, uint32_t *n) {
    uint64_t v = 0;
    for (; *s >= '0' && *s <= '9' && v <= 4294967295u; s++) v = 10 * v + (uint64_t)(*s - '0');
    *n = (uint32_t)v;
    return *s == 0 && v != 0 && v <= 4294967295u;
}

/* A whole file, with a 0 behind it; NULL where it cannot be read. */
static char *whole(const char *path) {
    FILE *f = fopen(path, "rb");
    char *bytes = NULL;
    size_t size = 4096, read = 0, got = 1;
    if (f == NULL) return NULL;
    while (got != 0) {
        char *more = realloc(bytes, size *= 2);
        if (more == NULL) break;
        bytes = more;
        got = fread(bytes + read, 1, size - read - 1, f);
        read += got;
    }
    if (got != 0 || ferror(f)) {
        free(bytes);
        bytes = NULL;
    } else {
        bytes[read] = 0;
    }
    fclose(f);
    return bytes;
}

/* The words of a line, which is changed; an empty line has none. Whether there was memory for their ends. */
static int words(char *line, list *l) {
    size_t spaces = 0, at = 0;
    for (const char *s = line; *s != 0; s++) spaces += *s == ' ';
    l->text = line;
    l->count = *line != 0 ? spaces + 1 : 0;
    if ((l->ends = room(l->count, sizeof *l->ends)) == NULL) return 0;
    for (size_t i = 0; i < l->count; i++, line++) {
        while (*line != 0 && *line != ' ') l->text[at++] = *line++;
        l->ends[i] = at;
    }
    return 1;
}

static size_t length(const list *l) { return l->count != 0 ? l->ends[l->count - 1] : 0; }
static const uint8_t *bytes(const char *text) { return (const uint8_t *)text; }

/* Cuts the file after its first line. What is behind it, or NULL where it has no newline. */
static char *cut(char *s) {
    char *end = strchr(s, '\n');
    if (end != NULL) *end++ = 0;
    return end;
}

/* Reads and decodes a map. Whether it was taken; if not, there is a message. */
static int load(map *m, const char *whose, const char *path) {
    char *names, *end;
    if ((m->file = whole(path)) == NULL) {
        fprintf(stderr, "the %s's map cannot be opened: check the path\n", whose);
        return 0;
    }
    if ((names = cut(m->file)) == NULL || (m->mappings = cut(names)) == NULL || (end = cut(m->mappings)) == NULL || *end != 0) {
        fprintf(stderr, "the %s's map has not three lines, or is cut short: export it again\n", whose);
        return 0;
    }
    m->len = strlen(m->mappings);
    size_t size = pgk_table_size(bytes(m->mappings), m->len);
    if (!words(m->file, &m->sources) || !words(names, &m->names) || (m->table = room(size, sizeof *m->table)) == NULL) {
        fprintf(stderr, "there is no memory for the %s's map: load a smaller one\n", whose);
        return 0;
    }
    /* The decode that names no mode is checked: no position that loses bits comes to the screen. */
    pgk_decoded d = pgk_decode(bytes(m->mappings), m->len, (uint32_t)m->sources.count, (uint32_t)m->names.count, m->table, size);
    m->numbers = PGK_WIDTH * d.tokens;
    if (d.code == PGK_DONE) return 1;
    fprintf(stderr, "the %s's map is refused at byte %llu: %s (code %llu, number %llu)\n", whose,
        (unsigned long long)d.offset, pgk_words(d.code), (unsigned long long)d.code, (unsigned long long)d.number);
    return 0;
}

/* Prints the step of a position by the composed table and the ids of the names that were added to those of the inner map. Whether
 * there is one. */
static int print(const map *outer, const map *inner, const uint32_t *table, const uint32_t *added, size_t count, uint32_t line, uint32_t col) {
    pgk_answer a = pgk_lookup(table, outer->numbers, line, col);   /* refuses only what is not whole tokens */
    pgk_token t = { 0, 0, 0, 0, PGK_NONE, PGK_NONE, PGK_NONE };
    if (a.code == PGK_DONE && a.number != PGK_NONE) memcpy(&t, table + PGK_WIDTH * a.number, sizeof t);
    printf("stop bundle.js:%llu:%llu", line + 1ull, col + 1ull);
    if (t.source_id == PGK_NONE) {   /* no token, or one whose source line and column say nothing */
        printf(" has no step in the source\n");
        return 0;
    }
    /* The sources of a composed table are those of the inner map. */
    const list *sources = &inner->sources;
    size_t begin = t.source_id != 0 ? sources->ends[t.source_id - 1] : 0;
    printf(" is at %.*s, line %llu, column %llu", (int)(sources->ends[t.source_id] - begin), sources->text + begin, t.src_line + 1ull, t.src_col + 1ull);
    pgk_name n = pgk_name_of(bytes(inner->names.text), length(&inner->names), inner->names.ends, inner->names.count,
        bytes(outer->names.text), length(&outer->names), outer->names.ends, outer->names.count, added, count, t.name_id);
    if (n.found != 0) printf(", name %.*s", (int)(n.end - n.start), (n.outer != 0 ? outer : inner)->names.text + n.start);
    printf("\n");
    return 1;
}

/* Composes both maps and prints the step of a position. */
static int step(const map *outer, const map *inner, uint32_t line, uint32_t col) {
    /* The result has as many tokens as outer, as many names may be added as outer has, and the working memory is counted. */
    size_t places = pgk_work_places(inner->names.count, outer->names.count);
    uint32_t *table = room(outer->numbers, sizeof *table), *added = room(outer->names.count, sizeof *added), *work = room(places, sizeof *work);
    pgk_composed c;
    int status = 2;
    if (table == NULL || added == NULL || work == NULL) {
        fprintf(stderr, "there is no memory to compose the maps: load smaller ones\n");
    } else if ((c = pgk_compose_with(outer->table, outer->numbers, (uint32_t)outer->sources.count,
            bytes(outer->names.text), length(&outer->names), outer->names.ends, outer->names.count, inner->table, inner->numbers,
            bytes(inner->names.text), length(&inner->names), inner->names.ends, inner->names.count,
            table, outer->numbers, added, outer->names.count, work, places)).code != PGK_DONE) {
        fprintf(stderr, "the maps are not composed: %s (code %llu, number %llu)\n", pgk_words(c.code), (unsigned long long)c.code, (unsigned long long)c.number);
    } else {
        status = print(outer, inner, table, added, c.added, line, col) ? 0 : 1;
    }
    free(work);
    free(added);
    free(table);
    return status;
}

static void unload(map *m) {
    free(m->table);
    free(m->names.ends);
    free(m->sources.ends);
    free(m->file);
}

int main(int argc, char **argv) {
    static map outer, inner;
    uint32_t line, col;
    if (argc != 5) {
        fprintf(stderr, "usage: chain BUNDLE INPUT LINE COLUMN\n");
        return 2;
    }
    if (!number(argv[3], &line) || !number(argv[4], &col)) {
        fprintf(stderr, "LINE and COLUMN are numbers from 1 to 4294967295\n");
        return 2;
    }
    if (pgk_version() != PGK_VERSION) {
        fprintf(stderr, "libpeghayrick.a is not of version " PGK_VERSION_TEXT ": build this program again\n");
        return 2;
    }
    int status = load(&outer, "bundle", argv[1]) && load(&inner, "input", argv[2]) ? step(&outer, &inner, line - 1, col - 1) : 2;
    unload(&inner);
    unload(&outer);
    return status;
}
