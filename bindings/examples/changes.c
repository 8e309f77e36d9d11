/* What changed between two bundles: their maps side by side, one line for each difference, as the protocol group reads
 * them.
 *
 *     changes OLD NEW
 *
 * OLD and NEW are the two maps, as changes/old/bundle.txt and changes/new/bundle.txt: three lines, the sources, the
 * names, both parted by spaces, and the mappings. A line is a token of the bundle, its position and where it leads:
 *
 *     - 6:29 -> elution.ts 5:1 store                              only in the old map
 *     + 4:34 -> wash.ts 6:1 dry                                   only in the new map
 *     ~ 2:12 -> lysis.ts 4:1 mix => lysis.ts 4:1 shake            old => new
 *
 * Lines and columns count from 1, as JavaScript engines count them; the library counts from 0. Columns count UTF-16
 * units.
 * Ends with 0: there is no difference; 1: there are some; 2: a map or the call was refused. */
#include <stdio.h>
#include <stdlib.h>
#include <string.h>
#include "peghayrick.h"

/* The words of a line, one after another without the spaces, where each ends, and the id that both maps share for it. */
typedef struct { char *text; size_t *ends, count; uint32_t *ids; } list;

/* A map: its file, the lists in it, and the table of its tokens, of so many numbers. */
typedef struct { char *file; list sources, names; uint32_t *table; size_t numbers; } map;

/* Memory for so many things, never null but where there is none: the library takes no null, also where nothing is lent. */
static void *room(size_t count, size_t size) { return calloc(count != 0 ? count : 1, size); }

/* A whole file, with a 0 behind it; NULL where it cannot be read. */
static char *whole(const char *path) {
    FILE *f = fopen(path, "rb");
    char *bytes = NULL;
    size_t size = 4096, read = 0, got = 1;
    if (f == NULL) return NULL;
    while (got != 0) {
        char *more = realloc(bytes, size *= 2);
        if (more == NULL) break;
        bytes = more;
        got = fread(bytes + read, 1, size - read - 1, f);
        read += got;
    }
    if (got != 0 || ferror(f)) {
        free(bytes);
        bytes = NULL;
    } else {
        bytes[read] = 0;
    }
    fclose(f);
    return bytes;
}

/* The words of a line, which is changed; an empty line has none. Whether there was memory for their ends and ids. */
static int words(char *line, list *l) {
    size_t spaces = 0, at = 0;
    for (const char *s = line; *s != 0; s++) spaces += *s == ' ';
    l->text = line;
    l->count = *line != 0 ? spaces + 1 : 0;
    if ((l->ends = room(l->count, sizeof *l->ends)) == NULL || (l->ids = room(l->count, sizeof *l->ids)) == NULL) return 0;
    for (size_t i = 0; i < l->count; i++, line++) {
        while (*line != 0 && *line != ' ') l->text[at++] = *line++;
        l->ends[i] = at;
    }
    return 1;
}

/* A word of a list, and its length. */
static const char *word(const list *l, size_t i, size_t *len) {
    size_t begin = i != 0 ? l->ends[i - 1] : 0;
    *len = l->ends[i] - begin;
    return l->text + begin;
}

/* Cuts the file after its first line. What is behind it, or NULL where it has no newline. */
static char *cut(char *s) {
    char *end = strchr(s, '\n');
    if (end != NULL) *end++ = 0;
    return end;
}

/* Reads and decodes a map. Whether it was taken; if not, there is a message. */
static int load(map *m, const char *whose, const char *path) {
    char *names, *mappings, *end;
    if ((m->file = whole(path)) == NULL) {
        fprintf(stderr, "the %s map cannot be opened: check the path\n", whose);
        return 0;
    }
    if ((names = cut(m->file)) == NULL || (mappings = cut(names)) == NULL || (end = cut(mappings)) == NULL || *end != 0) {
        fprintf(stderr, "the %s map has not three lines, or is cut short: export it again\n", whose);
        return 0;
    }
    const uint8_t *text = (const uint8_t *)mappings;
    size_t len = strlen(mappings), size = pgk_table_size(text, len);
    if (!words(m->file, &m->sources) || !words(names, &m->names) || (m->table = room(size, sizeof *m->table)) == NULL) {
        fprintf(stderr, "there is no memory for the %s map: load a smaller one\n", whose);
        return 0;
    }
    /* The decode that names no mode is checked: no position that loses bits is compared. */
    pgk_decoded d = pgk_decode(text, len, (uint32_t)m->sources.count, (uint32_t)m->names.count, m->table, size);
    m->numbers = PGK_WIDTH * d.tokens;
    if (d.code == PGK_DONE) return 1;
    fprintf(stderr, "the %s map is refused at byte %llu: %s (code %llu, number %llu)\n", whose,
        (unsigned long long)d.offset, pgk_words(d.code), (unsigned long long)d.code, (unsigned long long)d.number);
    return 0;
}

/* The first word of a list that equals this one, or the list's count. */
static size_t find(const list *l, const char *s, size_t len) {
    for (size_t i = 0; i < l->count; i++) {
        size_t other;
        const char *t = word(l, i, &other);
        if (other == len && memcmp(s, t, len) == 0) return i;
    }
    return l->count;
}

/* Sets the shared ids of a list: the words of the old list come first, and then those of this one. They are searched one by one: where
 * names are many, an index is quicker. */
static void number(const list *old, list *l) {
    for (size_t i = 0; i < l->count; i++) {
        size_t len;
        const char *s = word(l, i, &len);
        size_t id = find(old, s, len);
        l->ids[i] = (uint32_t)(id < old->count ? id : id + find(l, s, len));
    }
}

/* Brings a map to the shared ids. Ids are compared as numbers, and each map counts its own lists: a step that has another name, and the
 * same id as before, would not be seen, and a step that stayed, with another id, would be shown. */
static void share(const map *old, map *m) {
    number(&old->sources, &m->sources);
    number(&old->names, &m->names);
    for (uint32_t *k = m->table; k < m->table + m->numbers; k += PGK_WIDTH) {
        pgk_token t;
        memcpy(&t, k, sizeof t);
        if (t.source_id != PGK_NONE) t.source_id = m->sources.ids[t.source_id];
        else t.src_line = t.src_col = 0;   /* they say nothing, and are those of the latest token with a source: they are compared too */
        if (t.name_id != PGK_NONE) t.name_id = m->names.ids[t.name_id];
        memcpy(k, &t, sizeof t);
    }
}

/* Prints the word of a shared id. */
static void print_word(const list *old, const list *new, uint32_t id) {
    size_t len;
    const char *s = id < old->count ? word(old, id, &len) : word(new, id - old->count, &len);
    printf("%.*s", (int)len, s);
}

/* Prints where a token leads: its source, the line and column there, and its name. */
static void print_step(const map *old, const map *new, const pgk_token *t) {
    if (t->source_id == PGK_NONE) {
        printf("no source");
        return;
    }
    print_word(&old->sources, &new->sources, t->source_id);
    printf(" %llu:%llu", t->src_line + 1ull, t->src_col + 1ull);
    if (t->name_id == PGK_NONE) return;
    printf(" ");
    print_word(&old->names, &new->names, t->name_id);
}

/* Prints a difference: its kind, and its tokens by their indices. */
static void print(const map *old, const map *new, const uint32_t *entry) {
    pgk_token was, is;
    if (entry[0] != PGK_ONLY_RIGHT) memcpy(&was, old->table + PGK_WIDTH * (size_t)entry[1], sizeof was);
    if (entry[0] != PGK_ONLY_LEFT) memcpy(&is, new->table + PGK_WIDTH * (size_t)entry[2], sizeof is);
    const pgk_token *t = entry[0] == PGK_ONLY_RIGHT ? &is : &was;
    printf("%c %llu:%llu -> ", entry[0] == PGK_ONLY_LEFT ? '-' : entry[0] == PGK_ONLY_RIGHT ? '+' : '~', t->dst_line + 1ull, t->dst_col + 1ull);
    print_step(old, new, t);
    if (entry[0] == PGK_DIFFERENT) {
        printf(" => ");
        print_step(old, new, &is);
    }
    printf("\n");
}

/* Compares both maps, which have shared ids, and prints what changed. */
static int changes(const map *old, const map *new) {
    /* At most one difference for each token of both, three numbers each. */
    size_t places = 3 * (old->numbers / PGK_WIDTH + new->numbers / PGK_WIDTH), counts[4] = { 0 };
    uint32_t *out = room(places, sizeof *out);
    pgk_compared c;
    int status = 2;
    if (out == NULL) {
        fprintf(stderr, "there is no memory to compare the maps: load smaller ones\n");
    } else if ((c = pgk_compare(old->table, old->numbers, new->table, new->numbers, out, places)).code != PGK_DONE) {
        /* Which of the two is meant: the old one where it is refused with itself too. */
        int old_too = pgk_compare(old->table, old->numbers, old->table, old->numbers, out, 0).code == c.code;
        fprintf(stderr, "the %s map is not compared: %s (code %llu, number %llu)\n", old_too ? "old" : "new", pgk_words(c.code),
            (unsigned long long)c.code, (unsigned long long)c.number);
    } else if (c.entries == 0) {
        printf("no difference\n");
        status = 0;
    } else {
        for (size_t i = 0; i < c.entries; i++) {
            print(old, new, out + 3 * i);
            counts[out[3 * i]]++;
        }
        printf("%llu difference%s: %zu only in the old map, %zu only in the new map, %zu changed\n", (unsigned long long)c.entries,
            c.entries == 1 ? "" : "s", counts[PGK_ONLY_LEFT], counts[PGK_ONLY_RIGHT], counts[PGK_DIFFERENT]);
        status = 1;
    }
    free(out);
    return status;
}

static void unload(map *m) {
    free(m->table);
    free(m->names.ids);
    free(m->names.ends);
    free(m->sources.ids);
    free(m->sources.ends);
    free(m->file);
}

int main(int argc, char **argv) {
    static map old, new;
    int status = 2;
    if (argc != 3) {
        fprintf(stderr, "usage: changes OLD NEW\n");
        return 2;
    }
    if (pgk_version() != PGK_VERSION) {
        fprintf(stderr, "libpeghayrick.a is not of version " PGK_VERSION_TEXT ": build this program again\n");
        return 2;
    }
    if (load(&old, "old", argv[1]) && load(&new, "new", argv[2])) {
        share(&old, &old);
        share(&old, &new);
        status = changes(&old, &new);
    }
    unload(&new);
    unload(&old);
    return status;
}
