/* The boundary, tested from C as an attacker would: lent memory flush with guard pages, read-only where the
 * library only reads, aligned to four bytes only, of length 0, and full of what the library must not touch.
 *
 *     boundary ROUNDS [long]
 *
 * long: texts of 4 GiB too, by a piece that is mapped many times, the longest list of names, and a table that has too many
 * differences for 32 bits; some seconds.
 * A read or write outside the lent memory ends the program by a signal. */
#define _GNU_SOURCE
#include <stdio.h>
#include <stdlib.h>
#include <string.h>
#include <sys/mman.h>
#include <sys/wait.h>
#include <unistd.h>
#include "peghayrick.h"

enum { PAGE = 4096, PEN = 2 * PAGE, MARK = 0xA5, W = PGK_WIDTH };

static unsigned passed, failed;

static void check(int ok, const char *what) {
    if (ok) passed++;
    else { failed++; printf("FAILED: %s\n", what); }
}

static uint64_t seed = 88172645463325252u;
static uint32_t any(void) { seed ^= seed << 13; seed ^= seed >> 7; seed ^= seed << 17; return (uint32_t)(seed >> 16); }
static uint32_t below(uint32_t n) { return any() % n; }

/* Pens: two pages between two guard pages. A lent list stands at the pen's start, at its end, or, as big as
 * it is, on the heap behind four bytes, where valgrind watches both of its ends. */
typedef enum { FIRST, LAST, HEAP, PLACES } place;
typedef struct { uint8_t *pen, *at, *heap; size_t bytes; int writable; } lent;

static uint8_t *new_pen(void) {
    uint8_t *m = mmap(NULL, PEN + 2 * PAGE, PROT_NONE, MAP_PRIVATE | MAP_ANONYMOUS, -1, 0);
    if (m == MAP_FAILED || mprotect(m + PAGE, PEN, PROT_READ | PROT_WRITE) != 0) { printf("no pen\n"); exit(2); }
    return m + PAGE;
}

static lent lend(uint8_t *pen, place where, const void *from, size_t bytes, int writable) {
    lent l = { pen, NULL, NULL, bytes, writable };
    if (bytes > PEN) { printf("pen too small\n"); exit(2); }
    if (where == HEAP) {
        l.heap = malloc(bytes + 4);
        memset(l.heap, MARK, 4);
        l.at = l.heap + 4;
        memcpy(l.at, from, bytes);
        return l;
    }
    mprotect(pen, PEN, PROT_READ | PROT_WRITE);
    memset(pen, MARK, PEN);
    l.at = where == FIRST ? pen : pen + PEN - bytes;
    memcpy(l.at, from, bytes);
    if (!writable) mprotect(pen, PEN, PROT_READ);
    return l;
}

/* Whether everything beside the lent bytes is as it was; the lent bytes go to `to`. */
static int back(lent l, void *to) {
    int ok = 1;
    if (to != NULL) memcpy(to, l.at, l.bytes);
    if (l.heap != NULL) {
        for (int i = 0; i < 4; i++) ok &= l.heap[i] == MARK;
        free(l.heap);
        return ok;
    }
    for (uint8_t *p = l.pen; p < l.pen + PEN; p++)
        if (p < l.at || p >= l.at + l.bytes) ok &= *p == MARK;
    return ok;
}

static uint8_t *pens[9];

/* Decoding in one mode, from one place to another. By default it is checked. */
enum { DEFAULT, LENIENT, CHECKED, MODES };

static pgk_decoded decode_at(int mode, place from, place to, const void *text, size_t len, uint32_t s, uint32_t n,
    uint32_t *table, size_t numbers, int *ok) {
    lent a = lend(pens[0], from, text, len, 0), b = lend(pens[1], to, table, 4 * numbers, 1);
    uint32_t *t = (uint32_t *)b.at;
    pgk_decoded d = mode == DEFAULT ? pgk_decode(a.at, len, s, n, t, numbers)
        : mode == LENIENT ? pgk_decode_lenient(a.at, len, s, n, t, numbers) : pgk_decode_checked(a.at, len, s, n, t, numbers);
    *ok &= back(b, table) & back(a, NULL);
    return d;
}

static int same_decoded(pgk_decoded a, pgk_decoded b) {
    return a.code == b.code && a.number == b.number && a.tokens == b.tokens && a.offset == b.offset;
}

/* Whether a segment begins at this byte, by the rule. */
static int begins(const char *text, size_t i) {
    return text[i] != ',' && text[i] != ';' && (i == 0 || text[i - 1] == ',' || text[i - 1] == ';');
}

/* Whether each token says where its segment begins. */
static int in_place(const uint32_t *table, size_t tokens, const char *text, size_t len) {
    size_t t = 0;
    int ok = 1;
    for (size_t i = 0; i < len && t < tokens; i++)
        if (begins(text, i)) ok &= table[W * t++ + 6] == i;
    return ok && t == tokens;
}

/* Whether two tables have the same tokens, each token's segment aside. */
static int same_tokens(const uint32_t *a, const uint32_t *b, size_t tokens) {
    int ok = 1;
    for (size_t t = 0; t < tokens; t++) ok &= memcmp(a + W * t, b + W * t, offsetof(pgk_token, segment)) == 0;
    return ok;
}

/* One text in every placement: one answer, no trace outside, each segment in its place, the table past the tokens kept. */
static int decode_all(int mode, const char *text, size_t len, uint32_t s, uint32_t n, size_t numbers, pgk_decoded want, uint32_t *out) {
    int ok = 1;
    for (place i = FIRST; i < PLACES; i++)
        for (place j = FIRST; j < PLACES; j++) {
            uint32_t table[1024];
            for (size_t k = 0; k < numbers; k++) table[k] = 0x5EED0000u + (uint32_t)k;
            pgk_decoded d = decode_at(mode, i, j, text, len, s, n, table, numbers, &ok);
            ok &= same_decoded(d, want);
            ok &= in_place(table, d.tokens, text, len);
            for (size_t k = W * d.tokens; k < numbers; k++) ok &= table[k] == 0x5EED0000u + (uint32_t)k;
            if (out != NULL && ok) memcpy(out, table, 4 * W * d.tokens);
        }
    return ok;
}

static const uint32_t none = PGK_NONE;

/* The worked texts of the format's rules, in the modes that they name. */
static void worked(void) {
    /* at: where the fault lies, in each mode that refuses. */
    static const struct { const char *text; uint32_t s, n, code, number, wide_code, wide_number, at; uint64_t tokens; uint32_t column; } rows[] = {
        { "", 0, 0, 0, 0, 0, 0, 0, 0, 0 },
        { "A", 0, 0, 0, 0, 0, 0, 0, 1, 0 },
        { "AAAA", 0, 0, 4, 0, 4, 0, 1, 0, 0 },
        { "ACAA", 1, 0, 4, 0, 4, 0, 1, 0, 0 },
        { "AAAAD", 1, 1, 5, 4294967295u, 6, 4, 4, 0, 0 },
        { "DAA", 1, 0, 3, 0, 3, 0, 0, 0, 0 },
        { "AADA", 1, 0, 3, 0, 3, 0, 2, 0, 0 },
        { "AAAD", 1, 0, 3, 0, 3, 0, 3, 0, 0 },
        { "gAADA", 1, 0, 3, 0, 3, 0, 3, 0, 0 },
        { "AAA", 1, 0, 3, 3, 3, 3, 0, 0, 0 },
        { "AAAAAA", 1, 1, 3, 6, 3, 6, 0, 0, 0 },
        { "+/////D", 0, 0, 0, 0, 0, 0, 0, 1, 2147483647u },
        { "ggggggE", 0, 0, 0, 0, 6, 0, 0, 1, 2147483648u },
        { "hgggggE", 0, 0, 3, 0, 6, 0, 0, 0, 0 },
        { "+/////H", 0, 0, 0, 0, 6, 0, 0, 1, 4294967295u },
        { "ggggggI", 0, 0, 0, 0, 6, 0, 0, 1, 0 },
        { "B", 0, 0, 0, 0, 3, 0, 0, 1, 0 },
        { "hA", 0, 0, 0, 0, 3, 0, 0, 1, 0 },
        { "ggggggggggggA", 0, 0, 0, 0, 0, 0, 0, 1, 0 },
        { "ggggggggggggQ", 0, 0, 0, 0, 6, 0, 0, 1, 0 },
        { "hgggggggggggQ", 0, 0, 0, 0, 6, 0, 0, 1, 0 },
        { "gggggggggggggA", 0, 0, 2, 0, 2, 0, 13, 0, 0 },
        { "ggggggggggggg,", 0, 0, 1, 0, 1, 0, 13, 0, 0 },
        { "!", 0, 0, 1, 0, 1, 0, 1, 0, 0 },
        { "!A", 0, 0, 3, 0, 3, 0, 0, 0, 0 },
        { "\x80", 0, 0, 1, 0, 1, 0, 1, 0, 0 },
    };
    for (size_t i = 0; i < sizeof rows / sizeof *rows; i++) {
        size_t len = strlen(rows[i].text);
        for (int mode = DEFAULT; mode < MODES; mode++) {
            uint32_t code = mode == LENIENT ? rows[i].code : rows[i].wide_code, number = mode == LENIENT ? rows[i].number : rows[i].wide_number;
            uint32_t out[W] = { 0 };
            pgk_decoded want = { code, number, code == 0 ? rows[i].tokens : 0, code == 0 ? len : rows[i].at };
            int ok = decode_all(mode, rows[i].text, len, rows[i].s, rows[i].n, 2 * W - 1, want, out);
            if (code == 0 && rows[i].tokens == 1) ok &= out[0] == 0 && out[1] == rows[i].column && out[4] == none && out[5] == none && out[6] == 0;
            check(ok, rows[i].text);
        }
    }
    uint32_t out[2 * W], two[2 * W] = { 0, 0, 2, 3, 0, none, 0, 1, 1, 2, 3, none, none, 5 };
    uint32_t gaps[2 * W] = { 0, 0, 0, 0, none, none, 2, 2, 0, 0, 0, none, none, 5 };
    for (int mode = DEFAULT; mode < MODES; mode++) {
        check(decode_all(mode, "AAEG;C", 6, 1, 0, 2 * W, (pgk_decoded){ 0, 0, 2, 6 }, out) && memcmp(out, two, sizeof two) == 0, "AAEG;C");
        check(decode_all(mode, ",,A;;A", 6, 0, 0, 2 * W, (pgk_decoded){ 0, 0, 2, 6 }, out) && memcmp(out, gaps, sizeof gaps) == 0, ",,A;;A");
    }
    /* What checked mode has alone: minus zero, the first field that is too wide, and its place among the refusals. */
    uint32_t zero[W] = { 0 };
    check(decode_all(LENIENT, "AAAAB", 5, 1, 1, W, (pgk_decoded){ 0, 0, 1, 5 }, out) && memcmp(out, zero, sizeof zero) == 0, "minus zero as a name, lenient");
    static const struct { const char *text; uint32_t s, n; pgk_decoded want; const char *what; } rules[] = {
        { "AAAAB", 1, 1, { 6, 4, 0, 4 }, "minus zero as a name, checked" },
        { "AAggggggIA", 1, 0, { 6, 2, 0, 2 }, "a wide source line" },
        { "DggggggEAA", 1, 0, { 6, 1, 0, 1 }, "a wide source before a column below 0" },
        { "AggggggE", 1, 0, { 6, 1, 0, 1 }, "a wide source before a wrong count" },
        { "AAAAggggggEA", 1, 1, { 6, 4, 0, 4 }, "a wide fifth field of six" },
        { "AAAAAggggggE", 1, 1, { 3, 6, 0, 0 }, "a sixth field is not judged" },
        { "AAggggggEggggggE", 1, 1, { 6, 2, 0, 2 }, "the first of two wide fields" },
        { "ggggggEg", 1, 1, { 1, 0, 0, 8 }, "a value cut short comes before a wide one" },
        { "ggggggEgggggggggggggA", 1, 1, { 2, 0, 0, 20 }, "a fourteenth digit comes before a wide value" },
        { "+/////D,+/////D,C,C", 0, 0, { 6, 0, 3, 18 }, "a sum of 2^32" },
        { "+/////D,C,B", 0, 0, { 0, 0, 3, 11 }, "minus zero from 2^31 to 0" },
        { "+/////D,hA", 0, 0, { 3, 0, 1, 8 }, "minus zero from 2^31 - 1" },
    };
    for (size_t i = 0; i < sizeof rules / sizeof *rules; i++) {
        for (int mode = DEFAULT; mode < MODES; mode += CHECKED) {
            uint32_t read[4 * W];
            int ok = decode_all(mode, rules[i].text, strlen(rules[i].text), rules[i].s, rules[i].n, 4 * W, rules[i].want, read);
            if (rules[i].want.code == 0) ok &= read[W + 1] == 2147483648u && read[2 * W + 1] == 0;
            check(ok, rules[i].what);
        }
    }
    check(decode_all(DEFAULT, "AAEG;C", 6, 1, 0, 2 * W - 1, (pgk_decoded){ 7, 0, 1, 5 }, out), "TableFull, one number too few");
    check(decode_all(DEFAULT, "AAEG;C", 6, 1, 0, 12, (pgk_decoded){ 7, 0, 1, 5 }, out), "TableFull, two tokens of six numbers");
    check(decode_all(DEFAULT, "AAEG;AAA", 8, 1, 0, W, (pgk_decoded){ 3, 3, 1, 5 }, out), "a full table and a bad segment: the segment's code");
    check(decode_all(DEFAULT, "AAEG;AAAJ", 9, 1, 0, 2 * W, (pgk_decoded){ 3, 0, 1, 8 }, out), "a source column below 0, behind a token");
    check(decode_all(CHECKED, "AAAAA;AAAAC", 11, 1, 1, 2 * W, (pgk_decoded){ 5, 1, 1, 10 }, out), "a bad name, behind a token");
    check(decode_all(LENIENT, "A,!", 3, 0, 0, 2 * W, (pgk_decoded){ 1, 0, 1, 3 }, out) && out[6] == 0, "a value cut short at the end, behind a token");
    check(decode_all(CHECKED, "AA", 2, 0, 0, 2 * W, (pgk_decoded){ 3, 2, 0, 0 }, out), "a wrong count is at the segment's start");
    check(decode_all(DEFAULT, "A", 1, 0, 0, 0, (pgk_decoded){ 7, 0, 0, 0 }, NULL), "TableFull, no table");
    check(decode_all(DEFAULT, ";;,", 3, 0, 0, 0, (pgk_decoded){ 0, 0, 0, 3 }, NULL), "delimiters need no table");
}

/* Texts at random: every placement answers alike; the refused segment begins behind the last delimiter before the offset, and what
 * stands before it decodes to the same tokens. */
static void texts(unsigned rounds) {
    static const char digits[] = "ABCDEFGHIJKLMNOPQRSTUVWXYZabcdefghijklmnopqrstuvwxyz0123456789+/";
    int alike = 1, sound = 1, cut = 1;
    for (unsigned r = 0; r < rounds; r++) {
        char text[128];
        size_t len = below(97), numbers = below(64);
        uint32_t wild = below(40);
        for (size_t i = 0; i < len; i++) {
            uint32_t x = below(20);
            text[i] = x < 3 ? ',' : x < 4 ? ';' : x < 15 ? digits[2 * below(8)] : below(40) < wild ? (char)any() : digits[below(64)];
        }
        uint32_t s = below(4) ? 1 + below(8) : any(), n = below(4) ? below(8) : any();
        int mode = (int)below(MODES);
        uint32_t table[64], again[64];
        for (size_t k = 0; k < 64; k++) table[k] = again[k] = 0x5EED0000u + (uint32_t)k;
        pgk_decoded d = decode_at(mode, HEAP, HEAP, text, len, s, n, table, numbers, &alike);
        alike &= decode_all(mode, text, len, s, n, numbers, d, NULL);
        sound &= d.code <= 7 && W * d.tokens <= numbers && d.offset <= len && (d.code != 0 || d.offset == len);
        for (size_t t = 0; t < d.tokens && sound; t++)
            sound &= (table[W * t + 4] == none || table[W * t + 4] < s) && (table[W * t + 5] == none || table[W * t + 5] < n);
        size_t begin = (size_t)d.offset;
        while (d.code != 0 && begin > 0 && text[begin - 1] != ',' && text[begin - 1] != ';') begin--;
        pgk_decoded e = decode_at(mode, LAST, LAST, text, begin, s, n, again, numbers, &alike);
        cut &= e.code == 0 && e.tokens == d.tokens && e.offset == begin && memcmp(table, again, sizeof table) == 0;
    }
    check(alike, "texts: one answer in every placement, nothing outside touched");
    check(sound, "texts: counts, offsets and ids within their bounds");
    check(cut, "texts: the part before a refused segment is done, with the same tokens");
}

/* Whether two decodes gave one answer and left one table. */
static int alike_in(int one, int other, const char *text, size_t len, uint32_t s, uint32_t n, size_t numbers, int *ok) {
    uint32_t table[2][96];
    for (size_t k = 0; k < 96; k++) table[0][k] = table[1][k] = 0x5EED0000u + (uint32_t)k;
    place from = (place)below(PLACES), to = (place)below(PLACES);
    pgk_decoded d = decode_at(one, from, to, text, len, s, n, table[0], numbers, ok);
    pgk_decoded e = decode_at(other, from, to, text, len, s, n, table[1], numbers, ok);
    return same_decoded(d, e) && memcmp(table[0], table[1], sizeof table[0]) == 0;
}

/* The decode that names no mode is the checked one: one answer and one table, where lenient mode has others and where not. */
static void by_default(unsigned rounds) {
    static const struct { const char *text; uint32_t s, n; const char *what; } rows[] = {
        { "ggggggE", 0, 0, "by default: a value past 31 bits" },
        { "ggggggggggggQ", 0, 0, "by default: a bit that the thirteenth digit loses" },
        { "+/////D,+/////D,E", 0, 0, "by default: a sum of 2^32" },
        { "B", 0, 0, "by default: minus zero" },
        { "hA", 0, 0, "by default: minus zero in two digits" },
        { "+/////D,C,B", 0, 0, "by default: minus zero that is taken" },
        { "AAAAB", 1, 1, "by default: minus zero as a name" },
        { "AAAAD", 1, 1, "by default: a name sum below 0" },
        { "AA+/////DA,AA+/////DA,AAEA", 1, 0, "by default: a source line of 2^32" },
        { "AAA+/////D,AAA+/////D,AAAE", 1, 0, "by default: a source column of 2^32" },
    };
    for (size_t i = 0; i < sizeof rows / sizeof *rows; i++) {
        size_t len = strlen(rows[i].text);
        int ok = 1;
        int same = alike_in(DEFAULT, CHECKED, rows[i].text, len, rows[i].s, rows[i].n, 4 * W, &ok);
        int apart = !alike_in(DEFAULT, LENIENT, rows[i].text, len, rows[i].s, rows[i].n, 4 * W, &ok);
        check(ok && same && apart, rows[i].what);
    }
    static const char *const parts[] = { "A", "A", "A", "A", "C", "C", "D", "E", ",", ",", ",", ";", "B", "hA", "gA", "+/////D", "//////D",
        "ggggggE", "hgggggE", "+/////H", "ggggggI", "ggggggggggggA", "ggggggggggggQ", "hgggggggggggQ", "g", "!" };
    int ok = 1, same = 1;
    unsigned apart = 0;
    for (unsigned r = 0; r < rounds; r++) {
        char text[96];
        size_t len = 0;
        for (uint32_t i = below(24); i > 0; i--) {
            const char *part = parts[below(sizeof parts / sizeof *parts)];
            if (len + strlen(part) > sizeof text) break;
            memcpy(text + len, part, strlen(part));
            len += strlen(part);
        }
        uint32_t s = below(3) ? 1 + below(3) : none, n = below(3) ? 1 + below(3) : none;
        size_t numbers = below(4) ? 96 : below(96);
        same &= alike_in(DEFAULT, CHECKED, text, len, s, n, numbers, &ok);
        apart += !alike_in(DEFAULT, LENIENT, text, len, s, n, numbers, &ok);
    }
    check(ok && same, "by default: texts at random, as in checked mode");
    check(apart > rounds / 20, "by default: texts on which lenient mode says something else");
}

static int same_chunk(pgk_chunk a, pgk_chunk b) { return memcmp(&a, &b, sizeof a) == 0; }

static pgk_encoded encode_at(place from, place to, const uint32_t *table, size_t numbers, pgk_chunk c, uint8_t *out, size_t room, int *ok) {
    lent a = lend(pens[0], from, table, 4 * numbers, 0), b = lend(pens[1], to, out, room, 1);
    pgk_encoded e = pgk_encode((uint32_t *)a.at, numbers, c, b.at, room);
    *ok &= back(b, out) & back(a, NULL);
    return e;
}

static int encode_all(const uint32_t *table, size_t numbers, pgk_chunk c, size_t room, uint64_t code, uint64_t number, uint64_t bytes,
    pgk_chunk next, uint8_t *got) {
    int ok = 1;
    for (place i = FIRST; i < PLACES; i++)
        for (place j = FIRST; j < PLACES; j++) {
            uint8_t out[4096];
            memset(out, '#', sizeof out);
            pgk_encoded e = encode_at(i, j, table, numbers, c, out, room, &ok);
            ok &= e.code == code && e.number == number && e.bytes == bytes && same_chunk(e.next, next);
            for (size_t k = bytes; k < sizeof out; k++) ok &= out[k] == '#';
            if (got != NULL && ok) memcpy(got, out, bytes);
        }
    return ok;
}

static void writing(unsigned rounds) {
    uint32_t two[2 * W] = { 0, 0, 2, 3, 0, none, none, 1, 1, 2, 3, none, none, 7 };
    pgk_chunk all = { 0, 2, 0, 0, 0, 0, 0, 0 }, end = { 2, 2, 1, 1, 2, 3, 0, 0 };
    uint8_t got[4096];
    check(encode_all(two, 2 * W, all, 6, 0, 0, 6, end, got) && memcmp(got, "AAEG;C", 6) == 0, "AAEG;C is written, flush");
    check(encode_all(two, 2 * W, all, 64, 0, 0, 6, end, got), "AAEG;C is written, the rest kept");
    check(encode_all(two, 2 * W, all, 5, 8, 6, 0, all, NULL), "NoRoom 6");
    check(encode_all(two, 2 * W, all, 0, 8, 6, 0, all, NULL), "NoRoom 6, no room at all");
    check(encode_all(two, 2 * W - 1, all, 64, 11, 0, 0, all, NULL), "BadTable");
    pgk_chunk bad = { 1, 0, 9, 8, 7, 6, 5, 4 }, far = { 0, 3, 9, 8, 7, 6, 5, 4 }, huge = { 4294967295u, 4294967295u, 0, 0, 0, 0, 0, 0 };
    check(encode_all(two, 2 * W, bad, 64, 10, 0, 0, bad, NULL), "BadChunk, start past end");
    check(encode_all(two, 2 * W, far, 64, 10, 0, 0, far, NULL), "BadChunk, end past the table");
    check(encode_all(two, 2 * W, huge, 64, 10, 0, 0, huge, NULL), "BadChunk, the largest numbers");
    pgk_chunk late = { 0, 2, 1, 0, 0, 0, 0, 0 };
    check(encode_all(two, 2 * W, late, 64, 9, 0, 0, late, NULL), "LineGoesBack 0");
    uint32_t fall[2 * W] = { 1, 0, 0, 0, none, none, 0, 0, 0, 0, 0, none, none, 0 };
    check(encode_all(fall, 2 * W, all, 64, 9, 1, 0, all, NULL), "LineGoesBack 1");
    pgk_chunk empty = { 1, 1, 9, 8, 7, 6, 5, 4 };
    check(encode_all(two, 2 * W, empty, 0, 0, 0, 0, empty, NULL), "an empty chunk");
    uint32_t deep[W] = { 4294967295u, 4294967295u, 4294967295u, 4294967295u, 4294967294u, 4294967294u, 4294967294u };
    pgk_chunk one = { 0, 1, 0, 0, 0, 0, 0, 0 }, done = { 1, 1, 4294967295u, 4294967295u, 4294967295u, 4294967295u, 4294967294u, 4294967294u };
    check(encode_all(deep, W, one, 64, 8, 4294967295u + 35ull, 0, one, NULL), "NoRoom past 32 bits");
    /* Huge counts: the largest ids, there and back. */
    pgk_chunk deep_line = one;
    deep_line.prev_dst_line = 4294967295u;
    deep[0] = 4294967295u;
    check(encode_all(deep, W, deep_line, 35, 0, 0, 35, done, got), "the largest numbers are written in 35 bytes");
    uint32_t back_again[W];
    check(decode_all(CHECKED, (char *)got, 35, 4294967295u, 4294967295u, W, (pgk_decoded){ 6, 0, 0, 0 }, NULL), "the largest steps, checked");
    check(decode_all(DEFAULT, (char *)got, 35, 4294967295u, 4294967295u, W, (pgk_decoded){ 6, 0, 0, 0 }, NULL), "the largest steps, by default");
    int far_ids = decode_all(LENIENT, (char *)got, 35, 4294967295u, 4294967295u, W, (pgk_decoded){ 0, 0, 1, 35 }, back_again);
    check(far_ids && memcmp(back_again + 1, deep + 1, 20) == 0, "4294967295 sources and names");
    check(decode_all(LENIENT, (char *)got, 35, 4294967294u, 4294967295u, W, (pgk_decoded){ 4, 0, 0, 7 }, NULL), "4294967294 sources");
    check(decode_all(LENIENT, (char *)got, 35, 4294967295u, 4294967294u, W, (pgk_decoded){ 5, 4294967294u, 0, 28 }, NULL), "4294967294 names");
    int round = 1, joined = 1, room = 1, unread = 1;
    unsigned wide = 0;
    for (unsigned r = 0; r < rounds; r++) {
        uint32_t table[16 * W], read[16 * W] = { 0 }, count = below(17), line = 0;
        for (uint32_t t = 0; t < count; t++) {
            uint32_t *k = table + W * t;
            line += below(3) ? 0 : below(4);
            uint32_t size = below(3) ? 40 : 4294967295u;
            k[0] = line; k[1] = below(size); k[2] = below(size); k[3] = below(size);
            k[4] = below(4) ? below(size) : none; k[5] = k[4] != none && below(2) ? below(size) : none;
            k[6] = below(3) ? any() : none;
            if (k[4] == none) { k[2] = t ? k[2 - W] : 0; k[3] = t ? k[3 - W] : 0; }
        }
        uint8_t whole[4096], parts[4096];
        memset(whole, '#', sizeof whole);
        pgk_chunk c = { 0, count, 0, 0, 0, 0, 0, 0 };
        int ok = 1;
        pgk_encoded e = encode_at(FIRST, FIRST, table, W * count, c, whole, 4096, &ok);
        round &= ok && e.code == 0 && e.next.start == count && e.next.end == count;
        int mode = (int)below(MODES);
        pgk_decoded d = decode_at(mode, LAST, LAST, whole, e.bytes, 4294967295u, 4294967295u, read, W * count, &ok);
        if (mode != LENIENT && pgk_meets_checked_premises(table, W * count, 4294967295u, 4294967295u) == 0) {
            round &= ok && d.code == PGK_WIDE_VALUE;
            wide++;
        } else {
            round &= ok && d.code == 0 && d.tokens == count && same_tokens(table, read, count) && in_place(read, count, (char *)whole, e.bytes);
        }
        if (e.bytes > 0) room &= encode_all(table, W * count, c, e.bytes - 1, 8, e.bytes, 0, c, NULL);
        room &= encode_all(table, W * count, c, e.bytes, 0, 0, e.bytes, e.next, NULL);
        size_t at = 0;
        pgk_chunk next = { 0, 0, 0, 0, 0, 0, 0, 0 };
        while (next.start < count) {
            next.end = next.start + 1 + below(count - next.start);
            memset(parts + at, '#', sizeof parts - at);
            pgk_encoded p = encode_at(LAST, LAST, table, W * count, next, parts + at, 4096 - at, &ok);
            if (p.code != 0 || p.next.start != next.end) { joined = 0; break; }
            at += p.bytes; next = p.next;
        }
        joined &= ok && at == e.bytes && memcmp(whole, parts, at) == 0;
        for (uint32_t t = 0; t < count; t++) table[W * t + 6] = below(2) ? any() : none;
        pgk_encoded o = encode_at(FIRST, LAST, table, W * count, c, parts, 4096, &ok);
        unread &= ok && o.code == 0 && o.bytes == e.bytes && same_chunk(o.next, e.next) && memcmp(whole, parts, e.bytes) == 0;
    }
    check(round, "tables: written and decoded again, the same tokens; or refused in checked mode, where a step is too wide");
    check(wide > 0, "tables with a step that is too wide");
    check(room, "tables: one byte too few is NoRoom with the bytes needed, the exact room is enough");
    check(joined, "tables: chunks of any size, joined, are the text of the whole");
    check(unread, "tables: the same text, whatever the segments are");
}

/* Translation by the rule. 0 if refused, with the index in *bad. */
static int moved(uint32_t *k, size_t tokens, uint32_t l, uint32_t s, uint32_t n, uint64_t *bad) {
    uint32_t new[96];
    memcpy(new, k, 4 * W * tokens);
    for (size_t t = 0; t < tokens; t++) {
        uint32_t *x = new + W * t;
        *bad = t;
        if ((uint64_t)x[0] + l > 4294967295u) return 0;
        if (x[4] != none && (uint64_t)x[4] + s >= 4294967295u) return 0;
        if (x[5] != none && (uint64_t)x[5] + n >= 4294967295u) return 0;
        x[0] += l;
        if (x[4] != none) x[4] += s;
        if (x[5] != none) x[5] += n;
    }
    memcpy(k, new, 4 * W * tokens);
    return 1;
}

static void translating(unsigned rounds) {
    int tables = 1, records = 1;
    for (unsigned r = 0; r < rounds; r++) {
        uint32_t table[96], want[96], got[96];
        size_t numbers = below(97);
        for (size_t k = 0; k < 96; k++) { uint32_t x = below(30); table[k] = x < 4 ? none : x == 4 ? none - 1 - below(9) : below(1000); }
        uint32_t l = below(20), s = below(20), n = below(20);
        for (size_t k = 0; k + W <= 96; k += W) if (below(8)) table[k] = below(1000);
        uint64_t code = 0, number = 0;
        memcpy(want, table, sizeof table);
        if (numbers % W != 0) code = 11;
        else if (!moved(want, numbers / W, l, s, n, &number)) code = 12;
        else number = 0;
        for (place i = FIRST; i < PLACES; i++) {
            memcpy(got, table, sizeof table);
            lent a = lend(pens[0], i, got, 4 * numbers, 1);
            pgk_answer d = pgk_translate((uint32_t *)a.at, numbers, l, s, n);
            tables &= back(a, got) && d.code == code && d.number == number && memcmp(got, want, sizeof got) == 0;
            if (numbers % W != 0) continue;
            memcpy(got, table, sizeof table);
            a = lend(pens[0], i, got, 4 * numbers, 1);
            d = pgk_translate_tokens((pgk_token *)a.at, numbers / W, l, s, n);
            records &= back(a, got) && d.code == code && d.number == number && memcmp(got, want, sizeof got) == 0;
        }
    }
    check(tables, "translating tables, by the rule, refused as a whole");
    check(records, "translating records, by the rule, refused as a whole");
    uint32_t id[W] = { 0, 0, 0, 0, 4294967294u, none, 4294967294u };
    pgk_answer a = pgk_translate(id, W, 0, 1, 0);
    check(a.code == 12 && a.number == 0 && id[4] == 4294967294u, "TooBig: an id sum of 4294967295 does not become none");
    a = pgk_translate(id, W, 4294967295u, 0, 4294967295u);
    check(a.code == 0 && id[0] == 4294967295u && id[5] == none && id[6] == 4294967294u, "the largest line, none stays none");
    static const uint32_t segments[] = { 0, 5, 2147483648u, 4294967294u, PGK_NONE };
    int kept = 1;
    for (size_t i = 0; i < sizeof segments / sizeof *segments; i++) {
        pgk_token t = { 1, 2, 3, 4, 5, 6, segments[i] }, want = { 11, 2, 3, 4, 25, 36, segments[i] };
        uint32_t table[W];
        memcpy(table, &t, sizeof t);
        kept &= pgk_translate(table, W, 10, 20, 30).code == 0 && memcmp(table, &want, sizeof want) == 0;
        kept &= pgk_translate_tokens(&t, 1, 10, 20, 30).code == 0 && memcmp(&t, &want, sizeof want) == 0;
    }
    check(kept, "translating keeps each segment, in both forms");
}

static uint64_t found(const uint32_t *k, size_t tokens, uint32_t line, uint32_t col) {
    uint64_t best = none;
    for (size_t t = 0; t < tokens; t++)
        if (k[W * t] == line && k[W * t + 1] <= col && (best == none || k[W * t + 1] >= k[W * best + 1])) best = t;
    return best;
}

static void looking(unsigned rounds) {
    int ok = 1;
    for (unsigned r = 0; r < rounds; r++) {
        uint32_t table[96];
        size_t numbers = below(97);
        for (size_t k = 0; k < 96; k++) table[k] = below(4) ? below(5) : below(2) ? none : any();
        uint32_t line = below(4) ? below(5) : none, col = below(4) ? below(6) : any();
        for (place i = FIRST; i < PLACES; i++) {
            lent a = lend(pens[0], i, table, 4 * numbers, 0);
            pgk_answer d = pgk_lookup((uint32_t *)a.at, numbers, line, col);
            ok &= back(a, NULL) && d.code == (numbers % W ? 11 : 0) && d.number == (numbers % W ? 0 : found(table, numbers / W, line, col));
        }
    }
    check(ok, "lookup in any table, by the rule");
}

/* Many lookups by the rule. */
static pgk_answer found_many(const uint32_t *k, size_t numbers, const uint32_t *asked, size_t n, uint32_t *out, size_t room) {
    pgk_answer a = { numbers % W ? PGK_BAD_TABLE : n % 2 ? PGK_ODD_LIST : room < n / 2 ? PGK_NO_ROOM : PGK_DONE, 0 };
    if (a.code == PGK_NO_ROOM) a.number = n / 2;
    for (size_t i = 0; a.code == PGK_DONE && i < n / 2; i++) out[i] = (uint32_t)found(k, numbers / W, asked[2 * i], asked[2 * i + 1]);
    return a;
}

/* The two calls for many positions: one answer. */
typedef pgk_answer many(const uint32_t *table, size_t numbers, const uint32_t *asked, size_t n, uint32_t *out, size_t room);

enum { PLAIN, QUICK, CALLS };

static many *const calls[CALLS] = { pgk_lookup_many, pgk_lookup_many_quick };

static void check_many(int ok, int call, const char *what) {
    if (!ok) printf("%s, ", call == QUICK ? "quick" : "plain");
    check(ok, what);
}

enum { ASKED = 128 };

/* One call in nine placements: this answer, no trace outside, and of what is lent to be written only the places of the positions. */
static int many_all(int call, const uint32_t *table, size_t numbers, const uint32_t *asked, size_t n, size_t room, pgk_answer want, const uint32_t *out) {
    int ok = 1;
    for (place i = FIRST; i < PLACES; i++)
        for (place j = FIRST; j < PLACES; j++) {
            uint32_t got[ASKED];
            for (size_t k = 0; k < room; k++) got[k] = 0x5EED0000u + (uint32_t)k;
            lent a = lend(pens[0], i, table, 4 * numbers, 0), b = lend(pens[1], (place)((i + j) % PLACES), asked, 4 * n, 0),
                c = lend(pens[2], j, got, 4 * room, 1);
            pgk_answer d = calls[call]((uint32_t *)a.at, numbers, (uint32_t *)b.at, n, (uint32_t *)c.at, room);
            ok &= back(c, got) & back(a, NULL) & back(b, NULL);
            size_t filled = want.code == PGK_DONE ? n / 2 : 0;
            ok &= d.code == want.code && d.number == want.number && memcmp(got, out, 4 * filled) == 0;
            for (size_t k = filled; k < room; k++) ok &= got[k] == 0x5EED0000u + (uint32_t)k;
        }
    return ok;
}

/* Each refusal, their order, and what is answered by hand, in a table that is not sorted and in the same tokens sorted. */
static void worked_many(int call) {
    /* Two tokens at one position, one before them on the line, and one at the largest position. */
    static const uint32_t table[4 * W] = { 2, 5, 0, 0, 0, 0, 0, 2, 5, 0, 0, 0, 0, 0, 2, 3, 0, 0, 0, 0, 0, PGK_NONE, PGK_NONE, 0, 0, 0, 0, 0 };
    static const uint32_t to[4] = { 1, 2, 0, 3 };   /* where each token stands in the sorted table */
    static const struct { size_t numbers, n, room; uint32_t asked[8]; pgk_answer want; uint32_t out[4]; const char *what; } rows[] = {
        { 4 * W, 8, 4, { 2, 5, 2, 4, 2, 2, 0, 5 }, { PGK_DONE, 0 }, { 1, 2, PGK_NONE, PGK_NONE }, "many: the latest, one before it, none, none on the line" },
        { 4 * W, 8, 9, { 2, 9, 2, 3, 2, 9, 2, 9 }, { PGK_DONE, 0 }, { 1, 2, 1, 1 }, "many: a position that comes again, and places past the positions" },
        { 4 * W, 6, 3, { PGK_NONE, PGK_NONE, PGK_NONE, PGK_NONE - 1, 2, PGK_NONE }, { PGK_DONE, 0 }, { 3, PGK_NONE, 1 }, "many: the largest numbers" },
        { 4 * W, 0, 0, { 0 }, { PGK_DONE, 0 }, { 0 }, "many: no positions" },
        { 4 * W, 0, 4, { 0 }, { PGK_DONE, 0 }, { 0 }, "many: no positions, and places" },
        { 0, 4, 2, { 0, 0, PGK_NONE, PGK_NONE }, { PGK_DONE, 0 }, { PGK_NONE, PGK_NONE }, "many: no tokens" },
        { 4 * W, 6, 2, { 2, 5, 2, 5, 2, 5 }, { PGK_NO_ROOM, 3 }, { 0 }, "many: NoRoom with the number of pairs" },
        { 4 * W, 2, 0, { 2, 5 }, { PGK_NO_ROOM, 1 }, { 0 }, "many: NoRoom, no places" },
        { 4 * W, 1, 4, { 2 }, { PGK_ODD_LIST, 0 }, { 0 }, "many: OddList, one number" },
        { 4 * W, 7, 4, { 2, 5, 2, 5, 2, 5, 2 }, { PGK_ODD_LIST, 0 }, { 0 }, "many: OddList, room enough" },
        { 4 * W, 7, 2, { 2, 5, 2, 5, 2, 5, 2 }, { PGK_ODD_LIST, 0 }, { 0 }, "many: OddList before NoRoom" },
        { 4 * W - 1, 4, 4, { 2, 5, 2, 5 }, { PGK_BAD_TABLE, 0 }, { 0 }, "many: BadTable" },
        { 4 * W - 1, 3, 4, { 2, 5, 2 }, { PGK_BAD_TABLE, 0 }, { 0 }, "many: BadTable before OddList" },
        { 12, 8, 3, { 2, 5, 2, 5, 2, 5, 2, 5 }, { PGK_BAD_TABLE, 0 }, { 0 }, "many: BadTable before NoRoom" },
        { 1, 0, 0, { 0 }, { PGK_BAD_TABLE, 0 }, { 0 }, "many: BadTable, no positions" },
    };
    uint32_t sorted[4 * W];
    for (size_t t = 0; t < 4; t++) memcpy(sorted + W * to[t], table + W * t, 4 * W);
    for (size_t i = 0; i < sizeof rows / sizeof *rows; i++) {
        uint32_t out[4];
        for (size_t k = 0; k < 4; k++) out[k] = rows[i].out[k] == none ? none : to[rows[i].out[k]];
        int ok = many_all(call, table, rows[i].numbers, rows[i].asked, rows[i].n, rows[i].room, rows[i].want, rows[i].out);
        ok &= many_all(call, sorted, rows[i].numbers, rows[i].asked, rows[i].n, rows[i].room, rows[i].want, out);
        check_many(ok, call, rows[i].what);
    }

    /* A token alone, and up to 70 at one position: before it, at it, past it, on other lines. */
    static const uint32_t asked[12] = { 2, 4, 2, 5, 2, PGK_NONE, 1, 5, 3, 5, PGK_NONE, PGK_NONE };
    int ok = 1;
    for (uint32_t tokens = 1; tokens <= 70; tokens++) {
        uint32_t equal[70 * W] = { 0 }, out[6] = { none, tokens - 1, tokens - 1, none, none, none };
        for (uint32_t t = 0; t < tokens; t++) memcpy(equal + W * t, table, 8);
        ok &= many_all(call, equal, W * tokens, asked, 12, 6, (pgk_answer){ PGK_DONE, 0 }, out);
    }
    check_many(ok, call, "many: the latest of equal tokens");

    /* What is only read may overlap: here the positions are a token's own. */
    uint32_t self[W] = { 7, 8, 0, 0, 0, 0, 0 }, where = 9;
    pgk_answer a = calls[call](self, W, self, 2, &where, 1);
    check_many(a.code == PGK_DONE && a.number == 0 && where == 0, call, "many: positions within the table");
}

/* Every table of up to four tokens at nine positions, in any order, asked for all nine forth and back: as one by one. */
static void small_many(int call) {
    static const uint32_t ends[3] = { 0, 1, PGK_NONE };
    uint32_t asked[36];
    int alone = 1;
    unsigned hits = 0, misses = 0;
    for (uint32_t i = 0; i < 18; i++) {
        uint32_t k = i < 9 ? i : 17 - i;
        asked[2 * i] = ends[k / 3];
        asked[2 * i + 1] = ends[k % 3];
    }
    for (uint32_t tokens = 0, tables = 1; tokens <= 4; tokens++, tables *= 9)
        for (uint32_t number = 0; number < tables; number++) {
            uint32_t small[4 * W] = { 0 }, out[18], rest = number;
            for (uint32_t t = 0; t < tokens; t++, rest /= 9) memcpy(small + W * t, asked + 2 * (rest % 9), 8);
            pgk_answer a = calls[call](small, W * tokens, asked, 36, out, 18);
            alone &= a.code == PGK_DONE && a.number == 0;
            for (uint32_t i = 0; i < 18; i++) {
                alone &= pgk_lookup(small, W * tokens, asked[2 * i], asked[2 * i + 1]).number == out[i];
                if (out[i] == none) misses++;
                else hits++;
            }
        }
    check_many(alone && hits > 1000 && misses > 1000, call, "many: every small table, as one by one");
}

/* Tables that fall at one token, each in turn: the second, the last and those at each quarter's end among them. Were such a table taken
 * for sorted, the token before the fall would not be found. */
static void falling_many(int call) {
    static const char *const ways[] = { "many: a column falls", "many: a column falls to before all", "many: a line falls", "many: a line falls to before all" };
    enum { MOST = 130 };
    for (int way = 0; way < 4; way++) {
        uint32_t table[MOST * W] = { 0 };
        int ok = 1;
        for (uint32_t t = 0; t < MOST; t++) {
            table[W * t] = way < 2 ? 3 : 2 * t + 2;
            table[W * t + 1] = way < 2 ? 10 * t + 10 : 5;
        }
        for (uint32_t tokens = 2; tokens <= MOST; tokens++)
            for (uint32_t at = 1; at < tokens; at++) {
                uint32_t *fallen = table + W * at, line = fallen[0], col = fallen[1];
                fallen[0] = way < 2 ? 3 : way == 2 ? 2 * at - 1 : 0;
                fallen[1] = way == 0 ? 10 * at - 5 : way == 1 ? 0 : 9;
                const uint32_t *last = table + W * (tokens - 1);
                uint32_t asked[10] = { fallen[-W], fallen[1 - W], fallen[0], fallen[1], table[0], table[1], last[0], last[1], line, col };
                uint32_t out[5], want[5];
                pgk_answer a = calls[call](table, W * tokens, asked, 10, out, 5);
                found_many(table, W * tokens, asked, 10, want, 5);
                ok &= a.code == PGK_DONE && a.number == 0 && out[0] == at - 1 && out[1] == at && memcmp(out, want, sizeof out) == 0;
                fallen[0] = line;
                fallen[1] = col;
            }
        check_many(ok, call, ways[way]);
    }
}

/* Tables at random, of more tokens than the 64 that the plain call looks at together: in no order, sorted, and sorted but for one token. */
static void random_many(int call, unsigned rounds) {
    int ok = 1;
    unsigned seen[18] = { 0 };
    for (unsigned r = 0; r < rounds; r++) {
        enum { MOST = 200 };
        uint32_t table[MOST * W], asked[ASKED], out[ASKED], line = 0, col = 0;
        size_t numbers = below(20) ? W * below(MOST + 1) : below(MOST * W + 1), n = below(ASKED + 1), room = below(10) ? n / 2 : below(ASKED);
        if (below(4)) n -= n % 2;
        uint32_t order = below(3), lines = 1 + below(9);
        for (size_t k = 0; k < MOST * W; k += W) {
            if (below(20) == 0) { line++; col = 0; }
            col += below(3);
            table[k] = order ? line : below(lines);
            table[k + 1] = order ? col : below(4) ? below(9) : any();
            for (size_t i = 2; i < W; i++) table[k + i] = any();
        }
        if (order == 2 && numbers >= W) memcpy(table + W * below((uint32_t)(numbers / W)), table + W * below(MOST), 8);
        for (size_t i = 0; i + 1 < ASKED; i += 2) {
            memcpy(asked + i, table + W * below(MOST), 8);
            if (below(2)) asked[i] = below(lines + 1);
            if (below(2)) asked[i + 1] += below(3) - 1;
        }
        pgk_answer want = found_many(table, numbers, asked, n, out, room);
        seen[want.code]++;
        ok &= many_all(call, table, numbers, asked, n, room, want, out);
    }
    check_many(ok, call, "many: any table, by the rule, in nine placements");
    check_many(seen[PGK_DONE] && seen[PGK_NO_ROOM] && seen[PGK_BAD_TABLE] && seen[PGK_ODD_LIST], call, "many: met codes 0, 8, 11, 17");
}

/* How many numbers a table needs, by the rule: the bytes that begin a segment. */
static size_t needed(const char *text, size_t len) {
    size_t n = 0;
    for (size_t i = 0; i < len; i++) n += begins(text, i);
    return W * n;
}

static size_t size_at(place where, const void *text, size_t len, int *ok) {
    lent a = lend(pens[0], where, text, len, 0);
    size_t size = pgk_table_size(a.at, len);
    *ok &= back(a, NULL);
    return size;
}

static void sizing(unsigned rounds) {
    static const struct { const char *text; size_t size; } rows[] = {
        { "", 0 }, { ";", 0 }, { ",,;;,", 0 }, { "A", 7 }, { "AAEG;C", 14 }, { "AAEG;C;", 14 }, { ",A", 7 }, { "A,;,A", 14 },
        { "AAAAAAAAAAAAAAAA", 7 }, { "A,A,A,A", 28 }, { "!\x80 \n", 7 }, { "+:-<", 7 },
    };
    int ok = 1, by_rule = 1, most = 1, fits = 1, least = 1;
    unsigned done = 0, refused = 0;
    for (size_t i = 0; i < sizeof rows / sizeof *rows; i++)
        for (place w = FIRST; w < PLACES; w++) ok &= size_at(w, rows[i].text, strlen(rows[i].text), &ok) == rows[i].size;
    check(ok, "table size of worked texts");
    for (unsigned r = 0; r < rounds; r++) {
        char text[128];
        size_t len = below(97), delimiters = 0;
        uint32_t wild = below(2);
        for (size_t i = 0; i < len; i++) {
            uint32_t x = below(10);
            text[i] = x < 3 ? ',' : x < 4 ? ';' : wild ? (char)any() : "AACE"[below(4)];
            delimiters += text[i] == ',' || text[i] == ';';
        }
        size_t size = needed(text, len);
        for (place w = FIRST; w < PLACES; w++) by_rule &= size_at(w, text, len, &by_rule) == size;
        most &= size <= PGK_WIDTH * (delimiters + 1);
        for (int mode = DEFAULT; mode < MODES; mode++) {
            uint32_t table[PGK_WIDTH * 97];
            pgk_decoded d = decode_at(mode, HEAP, LAST, text, len, 8, 8, table, size, &fits);
            fits &= d.code != PGK_TABLE_FULL && (d.code != PGK_DONE || PGK_WIDTH * d.tokens == size);
            if (d.code != PGK_DONE) { refused++; continue; }
            done++;
            if (size == 0) continue;
            d = decode_at(mode, HEAP, LAST, text, len, 8, 8, table, size - 1, &least);
            least &= d.code == PGK_TABLE_FULL && PGK_WIDTH * d.tokens == size - PGK_WIDTH;
        }
    }
    check(by_rule, "table size, by the rule, in every placement");
    check(most, "table size: at most a token for each delimiter and one more");
    check(fits, "a table of that size is never full, and a done decode fills it");
    check(least, "a table one number smaller is full");
    check(done > 0 && refused > 0, "table size met texts that are done and texts that are refused");
}

/* Whether a table surely reads back, by the rule. */
static uint64_t premised(const uint32_t *k, size_t numbers, uint32_t sources, uint32_t names) {
    uint32_t line = 0, src_line = 0, src_col = 0;
    if (numbers % W != 0) return 0;
    for (size_t t = 0; t < numbers / W; t++, k += W) {
        int with = k[4] != none;
        if (k[0] < line || (with && k[4] >= sources) || (k[5] != none && (k[5] >= names || !with))) return 0;
        if (!with && (k[2] != src_line || k[3] != src_col)) return 0;
        line = k[0];
        if (with) { src_line = k[2]; src_col = k[3]; }
    }
    return 1;
}

/* Whether it surely reads back in checked mode too, by the rule. */
static uint64_t premised_checked(const uint32_t *k, size_t numbers, uint32_t sources, uint32_t names) {
    int64_t line = 0, was[6] = { 0 };   /* by the place in a token */
    if (!premised(k, numbers, sources, names)) return 0;
    for (size_t t = 0; t < numbers / W; t++, k += W) {
        if (k[0] != line) was[1] = 0;
        line = k[0];
        for (int i = 1; i < 6; i++) {
            if (i > 1 && (k[4] == none || (i == 5 && k[5] == none))) continue;
            if (llabs(k[i] - was[i]) >= 2147483648) return 0;
            was[i] = k[i];
        }
    }
    return 1;
}

static uint64_t premises_at(int checked, place where, const uint32_t *table, size_t numbers, uint32_t s, uint32_t n, int *ok) {
    lent a = lend(pens[0], where, table, 4 * numbers, 0);
    uint32_t *t = (uint32_t *)a.at;
    uint64_t meets = checked ? pgk_meets_checked_premises(t, numbers, s, n) : pgk_meets_premises(t, numbers, s, n);
    *ok &= back(a, NULL);
    return meets;
}

static void premises(unsigned rounds) {
    /* meets: 0 none, 1 those of lenient mode, 2 those of checked mode too. */
    static const struct { uint32_t token[2 * W]; size_t numbers; uint32_t s, n; uint64_t meets; const char *what; } rows[] = {
        { { 0 }, 0, 0, 0, 2, "no token" },
        { { 0, 0, 0, 0, PGK_NONE, PGK_NONE, 0 }, W, 0, 0, 2, "a token without a source at 0, 0" },
        { { 0, 0, 0, 0, PGK_NONE, PGK_NONE, PGK_NONE }, W - 1, 0, 0, 0, "not whole tokens" },
        { { 0, 0, 0, 0, PGK_NONE, PGK_NONE, 0, 0, 0, 0, PGK_NONE, PGK_NONE }, 12, 0, 0, 0, "two tokens of six numbers" },
        { { 9, 7, 5, 3, 0, 0, 4 }, W, 1, 1, 2, "a source and a name" },
        { { 9, 7, 5, 3, 0, 0, 2147483648u }, W, 0, 1, 0, "a source past its count" },
        { { 9, 7, 5, 3, 0, 0, 0 }, W, 1, 0, 0, "a name past its count" },
        { { 0, 0, 0, 0, PGK_NONE, 0, PGK_NONE }, W, 1, 1, 0, "a name without a source" },
        { { 0, 0, 0, 1, PGK_NONE, PGK_NONE, 4 }, W, 1, 1, 0, "a source column without a source" },
        { { 0, 0, 1, 0, PGK_NONE, PGK_NONE, 2147483648u }, W, 1, 1, 0, "a source line without a source" },
        { { 0, 0, 2, 3, 0, PGK_NONE, 0, 1, 1, 2, 3, PGK_NONE, PGK_NONE, PGK_NONE }, 2 * W, 1, 0, 2, "the source position before is repeated" },
        { { 0, 0, 2, 3, 0, PGK_NONE, 4, 1, 1, 0, 0, PGK_NONE, PGK_NONE, 2147483648u }, 2 * W, 1, 0, 0, "the source position before is not repeated" },
        { { 1, 0, 2, 3, 0, PGK_NONE, 0, 0, 0, 2, 3, 0, PGK_NONE, PGK_NONE }, 2 * W, 1, 0, 0, "a line goes back" },
        { { 1, 5, 2, 3, 0, PGK_NONE, 4, 1, 0, 2, 3, 0, PGK_NONE, 2147483648u }, 2 * W, 1, 0, 2, "a column goes back" },
        { { 4294967295u, 0, 0, 0, 4294967294u, 4294967294u, 0 }, W, PGK_NONE, PGK_NONE, 1, "the largest line and ids" },
        { { 4294967295u, 2147483647u, 2147483647u, 2147483647u, 2147483647u, 2147483647u, PGK_NONE }, W, PGK_NONE, PGK_NONE, 2, "the largest steps" },
        { { 0, 2147483648u, 0, 0, 0, 0, 4 }, W, 1, 1, 1, "a column by 2^31" },
        { { 0, 0, 2147483648u, 0, 0, 0, 2147483648u }, W, 1, 1, 1, "a source line by 2^31" },
        { { 0, 0, 0, 2147483648u, 0, 0, 0 }, W, 1, 1, 1, "a source column by 2^31" },
        { { 0, 0, 0, 0, 2147483648u, 0, PGK_NONE }, W, PGK_NONE, 1, 1, "a source by 2^31" },
        { { 0, 0, 0, 0, 0, 2147483648u, 4 }, W, 1, PGK_NONE, 1, "a name by 2^31" },
        { { 0, 1, 0, 0, 0, PGK_NONE, 2147483648u, 0, 2147483648u, 0, 0, 0, PGK_NONE, 0 }, 2 * W, 1, 0, 2, "2^31 by a smaller step" },
        { { 0, 1, 0, 0, 0, PGK_NONE, PGK_NONE, 1, 2147483648u, 0, 0, 0, PGK_NONE, 4 }, 2 * W, 1, 0, 1, "2^31 from the start of a line" },
    };
    for (size_t i = 0; i < sizeof rows / sizeof *rows; i++) {
        int ok = 1;
        for (place w = FIRST; w < PLACES; w++)
            for (int checked = 0; checked < 2; checked++)
                ok &= premises_at(checked, w, rows[i].token, rows[i].numbers, rows[i].s, rows[i].n, &ok) == (rows[i].meets > (uint64_t)checked);
        check(ok, rows[i].what);
    }
    int by_rule = 1, reads_back = 1, refuses = 1;
    unsigned met = 0, unmet = 0, wide = 0;
    for (unsigned r = 0; r < rounds; r++) {
        uint32_t table[16 * W], line = 0, at[2] = { 0, 0 }, s = 1 + below(4), n = 1 + below(4);
        size_t tokens = below(17), numbers = below(20) ? W * tokens : below(16 * W + 1);
        for (size_t k = 0; k < 16 * W; k += W) {
            uint32_t id = below(3) ? below(s) : none;
            line += below(3);
            table[k] = line; table[k + 1] = below(1000); table[k + 2] = below(5); table[k + 3] = below(5);
            table[k + 4] = id; table[k + 5] = id != none && below(2) ? below(n) : none; table[k + 6] = below(3) ? any() : none;
            if (id == none) { table[k + 2] = at[0]; table[k + 3] = at[1]; }
            at[0] = table[k + 2]; at[1] = table[k + 3];
        }
        size_t odd = below(16 * W);   /* one number that may break it */
        if (below(2) == 0) table[odd] = below(3) ? below(6) : odd % W == 0 ? line : none;
        size_t far = W * below(16) + 1 + below(5);   /* one whose step may be too wide */
        if (below(3) == 0 && table[far] != none) {
            table[far] = 2147483640u + below(16);
            if (far % W == 4) s = PGK_NONE;
            if (far % W == 5) n = PGK_NONE;
        }
        uint64_t want = premised(table, numbers, s, n), also = premised_checked(table, numbers, s, n);
        for (place w = FIRST; w < PLACES; w++) {
            by_rule &= premises_at(0, w, table, numbers, s, n, &by_rule) == want;
            by_rule &= premises_at(1, w, table, numbers, s, n, &by_rule) == also;
        }
        if (!want) { unmet++; continue; }
        met++;
        uint8_t text[36 * 16 + 2 * 16];   /* lines advance by at most two a token */
        uint32_t again[16 * W];
        pgk_encoded e = pgk_encode(table, numbers, pgk_first_chunk((uint32_t)(numbers / W)), text, sizeof text);
        pgk_decoded d = pgk_decode_lenient(text, e.bytes, s, n, again, 16 * W);
        reads_back &= e.code == PGK_DONE && d.code == PGK_DONE && W * d.tokens == numbers && same_tokens(table, again, d.tokens);
        memset(again, 0, sizeof again);
        d = pgk_decode_checked(text, e.bytes, s, n, again, 16 * W);
        if (!also) { wide++; refuses &= d.code == PGK_WIDE_VALUE; continue; }
        reads_back &= d.code == PGK_DONE && W * d.tokens == numbers && same_tokens(table, again, d.tokens);
    }
    check(by_rule, "premises of both modes, by the rule, in every placement");
    check(reads_back, "where the premises are met, what is written reads back");
    check(refuses, "where those of checked mode alone are not, it refuses what is written as too wide");
    check(met > wide && wide > 0 && unmet > 0, "premises that are met, in one mode or both, and that are not");
}

/* The header's own parts, and the version of the archive. */
static void header(void) {
    char text[64];
    check(pgk_version() == PGK_VERSION, "the archive is of the header's version");
    snprintf(text, sizeof text, "%u.%u.%u", PGK_VERSION / 1000000u, PGK_VERSION / 1000u % 1000u, PGK_VERSION % 1000u);
    check(strcmp(text, PGK_VERSION_TEXT) == 0, "the version's number and text");
    check(PGK_WIDTH == 7 && sizeof(pgk_token) == PGK_WIDTH * sizeof(uint32_t), "PGK_WIDTH");
    check(sizeof(pgk_token) == 28 && offsetof(pgk_token, segment) == 24, "the record of a token");
    pgk_chunk c = pgk_first_chunk(4294967295u), d = { 0, 4294967295u, 0, 0, 0, 0, 0, 0 };
    check(same_chunk(c, d), "the first chunk");
    check(pgk_work_places(0, 0) == 0 && pgk_work_places(1, 0) == 2 && pgk_work_places(0, 1) == 3 && pgk_work_places(5, 7) == 31
        && pgk_work_places(2147483647, 2147483647) == 10737418235, "places of working memory");
    check(pgk_work_places(SIZE_MAX / 2, 0) == SIZE_MAX - 1 && pgk_work_places(SIZE_MAX / 2 + 1, 0) == SIZE_MAX
        && pgk_work_places(1, SIZE_MAX / 3 - 1) == SIZE_MAX - 1 && pgk_work_places(2, SIZE_MAX / 3 - 1) == SIZE_MAX
        && pgk_work_places(0, SIZE_MAX / 3 + 1) == SIZE_MAX && pgk_work_places(SIZE_MAX, SIZE_MAX) == SIZE_MAX, "places that do not fit");
    int ok = 1;
    for (uint64_t i = 0; i <= PGK_UNSORTED; i++) {
        if (i == 16 || (i > PGK_ODD_LIST && i < PGK_UNSORTED)) continue;   /* as 15, no code */
        const char *words = pgk_words(i);
        ok &= strlen(words) > 3 && words[strlen(words) - 1] != '.' && (strstr(words, ": ") != NULL) == (i != PGK_DONE);
        for (uint64_t j = 0; j < i; j++) ok &= strcmp(words, pgk_words(j)) != 0;
    }
    check(ok, "a sentence for each code, with what to do");
    check(pgk_words(15) == pgk_words(16) && pgk_words(15) == pgk_words(18) && pgk_words(15) == pgk_words(21) && pgk_words(15) == pgk_words(23) && pgk_words(15) == pgk_words(4294967296u) && pgk_words(15) == pgk_words(~(uint64_t)0), "one sentence for unknown codes");
}

typedef struct { const uint8_t *text; size_t len; const size_t *ends; size_t count; } names;

static int sound(names n) {
    size_t before = 0;
    for (size_t i = 0; i < n.count; i++) { if (n.ends[i] < before || n.ends[i] > n.len) return 0; before = n.ends[i]; }
    return 1;
}
static size_t start_of(names n, size_t i) { return i == 0 ? 0 : n.ends[i - 1]; }
static int equal(names a, size_t i, names b, size_t j) {
    size_t s = start_of(a, i), t = start_of(b, j), len = a.ends[i] - s;
    return len == b.ends[j] - t && memcmp(a.text + s, b.text + t, len) == 0;
}

/* Two maps, what they are composed into and the working memory that is lent, each by its length. */
typedef struct {
    const uint32_t *outer; size_t outer_len; uint32_t sources; names x;
    const uint32_t *inner; size_t inner_len; names y;
    size_t result_len, added_len, work_len;
} maps;

/* Composition by the rule: without working memory, or with it. */
static pgk_composed composed(int with, maps m, uint32_t *result, uint32_t *added) {
    pgk_composed c = { 0, 0, 0 };
    size_t places = with ? 2 * m.y.count + 3 * m.x.count : 0;
    c.code = m.sources > 1 ? PGK_MORE_THAN_ONE_SOURCE : m.outer_len % W || m.inner_len % W ? PGK_BAD_TABLE : !sound(m.x) || !sound(m.y) ? PGK_BAD_NAMES
        : m.result_len / W < m.outer_len / W ? PGK_TABLE_FULL : m.added_len < m.x.count || m.work_len < places ? PGK_NO_ROOM : PGK_DONE;
    if (c.code == PGK_NO_ROOM) c.number = m.added_len < m.x.count ? m.x.count : places;
    if (c.code != PGK_DONE) return c;
    for (size_t t = 0; t < m.outer_len / W; t++) {
        const uint32_t *k = m.outer + W * t;
        uint32_t new[W] = { k[0], k[1], 0, 0, none, none, k[6] };
        uint64_t f = k[4] == none ? none : found(m.inner, m.inner_len / W, k[2], k[3]);
        if (f != none && m.inner[W * f + 4] != none) {
            memcpy(new + 2, m.inner + W * f + 2, 16);
            if (new[5] == none && k[5] < m.x.count) {
                size_t i = 0;
                while (i < m.y.count && !equal(m.x, k[5], m.y, i)) i++;
                if (i == m.y.count) {
                    size_t j = 0;
                    while (j < c.added && !equal(m.x, k[5], m.x, added[j])) j++;
                    if (j == c.added) { added[j] = k[5]; c.added++; }
                    i += j;
                }
                new[5] = (uint32_t)i;
            }
        }
        memcpy(result + W * t, new, sizeof new);
    }
    return c;
}

enum { RESULT = 100 * W + 4, ADDED = 104, WORK = 520 };

/* One call in three placements: the rule's answer, no trace outside, of what is lent to be written only what the rule writes, and the
 * working memory, which holds anything before, as it was where the call is refused. */
static int compose_all(int with, maps m, pgk_composed *want) {
    uint32_t result[RESULT], added[ADDED], marks[RESULT], ids[ADDED], work[WORK], before[WORK];
    int ok = 1;
    for (size_t k = 0; k < RESULT; k++) result[k] = 0x5EED0000u + (uint32_t)k;
    for (size_t k = 0; k < ADDED; k++) added[k] = 0xADD0000u + (uint32_t)k;
    for (size_t k = 0; k < WORK; k++) before[k] = below(3) ? below(2 * WORK) : any();
    *want = composed(with, m, result, added);
    for (place i = FIRST; i < PLACES; i++) {
        for (size_t k = 0; k < RESULT; k++) marks[k] = 0x5EED0000u + (uint32_t)k;
        for (size_t k = 0; k < ADDED; k++) ids[k] = 0xADD0000u + (uint32_t)k;
        memcpy(work, before, sizeof work);
        place wide = i == HEAP ? LAST : i;   /* ends are size_t, so aligned to eight */
        lent a = lend(pens[0], i, m.outer, 4 * m.outer_len, 0), b = lend(pens[1], i, m.inner, 4 * m.inner_len, 0),
            c = lend(pens[2], i, marks, 4 * m.result_len, 1), d = lend(pens[3], i, ids, 4 * m.added_len, 1),
            e = lend(pens[4], wide, m.x.ends, 8 * m.x.count, 0), f = lend(pens[5], wide, m.y.ends, 8 * m.y.count, 0),
            p = lend(pens[6], i, m.x.text, m.x.len, 0), q = lend(pens[7], i, m.y.text, m.y.len, 0), w = lend(pens[8], i, work, 4 * m.work_len, 1);
        pgk_composed g = with
            ? pgk_compose_with((uint32_t *)a.at, m.outer_len, m.sources, p.at, m.x.len, (size_t *)e.at, m.x.count, (uint32_t *)b.at, m.inner_len,
                q.at, m.y.len, (size_t *)f.at, m.y.count, (uint32_t *)c.at, m.result_len, (uint32_t *)d.at, m.added_len, (uint32_t *)w.at, m.work_len)
            : pgk_compose((uint32_t *)a.at, m.outer_len, m.sources, p.at, m.x.len, (size_t *)e.at, m.x.count, (uint32_t *)b.at, m.inner_len,
                q.at, m.y.len, (size_t *)f.at, m.y.count, (uint32_t *)c.at, m.result_len, (uint32_t *)d.at, m.added_len);
        ok &= g.code == want->code && g.number == want->number && g.added == want->added;
        ok &= back(a, NULL) & back(b, NULL) & back(c, marks) & back(d, ids) & back(e, NULL) & back(f, NULL) & back(p, NULL) & back(q, NULL) & back(w, work);
        ok &= memcmp(marks, result, sizeof marks) == 0 && memcmp(ids, added, sizeof ids) == 0;
        if (!with || want->code != PGK_DONE) ok &= memcmp(work, before, sizeof work) == 0;
    }
    return ok;
}

static pgk_name named(names y, names x, const uint32_t *added, size_t addn, uint32_t id) {
    pgk_name r = { 0, 0, 0, 0 };
    if (!sound(x) || !sound(y)) return r;
    if (id < y.count) return (pgk_name){ 1, 0, start_of(y, id), y.ends[id] };
    size_t at = id - y.count;
    if (at >= addn || added[at] >= x.count) return r;
    return (pgk_name){ 1, 1, start_of(x, added[at]), x.ends[added[at]] };
}

/* A list of up to so many names of up to so many letters, mostly sound. */
static names some(uint8_t *text, size_t *ends, uint32_t most, uint32_t letters) {
    names n = { text, 0, ends, below(most + 1) };
    for (size_t i = 0; i < n.count; i++) {
        for (uint32_t k = below(letters + 1); k > 0; k--) text[n.len++] = (uint8_t)"ab"[below(2)];
        ends[i] = n.len;
    }
    if (n.count != 0 && below(20) == 0) ends[below((uint32_t)n.count)] = below(2) ? below((uint32_t)n.len + 3) : ~(size_t)0 - below(3);
    while (below(3) == 0) text[n.len++] = 'a';   /* bytes that belong to no name */
    return n;
}

enum { LETTERS = 512 };

static void check_with(int ok, int with, const char *what) {
    if (!ok) printf("%s working memory, ", with ? "with" : "without");
    check(ok, what);
}

/* Each refusal, and their order; with working memory, one more, which is the last. */
static void worked_composing(int with) {
    static const uint32_t outer[2 * W] = { 0, 1, 2, 3, 0, 1, 4, 0, 9, 2, 4, 0, 0, 8 }, inner[W] = { 2, 3, 5, 6, 7, PGK_NONE, 9 };
    static const size_t two[2] = { 1, 2 }, falls[2] = { 2, 1 }, past[2] = { 1, 3 };
    static const struct { size_t outer_len; uint32_t sources; const size_t *outer_ends; size_t inner_len; const size_t *inner_ends; size_t result_len, added_len, work_len;
        uint64_t code, number; const char *what; } rows[] = {
        { 2 * W, 1, two, W, two, 2 * W, 2, 10, PGK_DONE, 0, "composing: exactly enough" },
        { 2 * W, 0, two, W, two, 2 * W + 3, 9, 40, PGK_DONE, 0, "composing: more than needed" },
        { 2 * W, 1, two, W, two, 2 * W, 2, 9, PGK_NO_ROOM, 10, "composing: NoRoom, a place too few" },
        { 2 * W, 1, two, W, two, 2 * W, 2, 2, PGK_NO_ROOM, 10, "composing: NoRoom, as many places as names are added" },
        { 2 * W, 1, two, W, two, 2 * W, 2, 0, PGK_NO_ROOM, 10, "composing: NoRoom, no working memory" },
        { 2 * W, 1, two, W, two, 2 * W, 1, 10, PGK_NO_ROOM, 2, "composing: NoRoom for the added names" },
        { 2 * W, 1, two, W, two, 2 * W, 1, 9, PGK_NO_ROOM, 2, "composing: NoRoom for the added names comes first" },
        { 2 * W, 1, two, W, two, 2 * W - 1, 1, 0, PGK_TABLE_FULL, 0, "composing: TableFull before NoRoom" },
        { 2 * W, 1, falls, W, two, W, 1, 0, PGK_BAD_NAMES, 0, "composing: BadNames before TableFull, outer ends that fall" },
        { 2 * W, 1, past, W, two, W, 1, 10, PGK_BAD_NAMES, 0, "composing: BadNames, an outer end past the text" },
        { 2 * W, 1, two, W, falls, W, 1, 0, PGK_BAD_NAMES, 0, "composing: BadNames, inner ends that fall" },
        { 2 * W, 1, two, W, past, 2 * W, 2, 9, PGK_BAD_NAMES, 0, "composing: BadNames before NoRoom, an inner end past the text" },
        { 2 * W - 1, 1, falls, W, two, W, 1, 0, PGK_BAD_TABLE, 0, "composing: BadTable before BadNames, outer" },
        { 2 * W, 1, two, W - 1, falls, W, 1, 0, PGK_BAD_TABLE, 0, "composing: BadTable before BadNames, inner" },
        { 2 * W - 1, 2, falls, W - 1, past, 0, 0, 0, PGK_MORE_THAN_ONE_SOURCE, 0, "composing: MoreThanOneSource first" },
        { 2 * W, PGK_NONE, two, W, two, 2 * W, 2, 10, PGK_MORE_THAN_ONE_SOURCE, 0, "composing: the most sources" },
    };
    for (size_t i = 0; i < sizeof rows / sizeof *rows; i++) {
        maps m = { outer, rows[i].outer_len, rows[i].sources, { (const uint8_t *)"ab", 2, rows[i].outer_ends, 2 }, inner, rows[i].inner_len,
            { (const uint8_t *)"bb", 2, rows[i].inner_ends, 2 }, rows[i].result_len, rows[i].added_len, rows[i].work_len };
        pgk_composed want;
        int ok = compose_all(with, m, &want), last = rows[i].number == 10;
        ok &= want.code == (with || !last ? rows[i].code : PGK_DONE) && want.number == (with || !last ? rows[i].number : 0);
        check_with(ok && (want.code != PGK_DONE || want.added == 1), with, rows[i].what);
    }
}

/* Small maps at random, with few names, of which most equal others. */
static void small_composing(int with, unsigned rounds) {
    int ok = 1;
    unsigned seen[15] = { 0 }, short_of_work = 0;
    for (unsigned r = 0; r < rounds; r++) {
        enum { MOST = 10 * W };
        uint8_t xt[LETTERS], yt[LETTERS];
        size_t xe[8], ye[8];
        uint32_t o[MOST], in[MOST];
        names x = some(xt, xe, 6, 2), y = some(yt, ye, 6, 2);
        for (size_t k = 0; k < MOST; k++) {
            uint32_t top = k % W < 4 ? 4 : 7;
            o[k] = below(top); in[k] = below(top);
            if (k % W == 6) { o[k] = any(); in[k] = any(); }
            if (k % W > 3) { if (below(4) == 0) o[k] = none; if (below(3) == 0) in[k] = none; }
        }
        maps m = { o, below(30) ? W * below(10) : below(MOST), below(20) ? below(2) : any(), x, in, below(30) ? W * below(10) : below(MOST), y, 0, 0, 0 };
        m.result_len = below(10) ? m.outer_len + below(5) : below(MOST);
        m.added_len = below(10) ? x.count + below(3) : below(8);
        m.work_len = below(10) ? pgk_work_places(y.count, x.count) + below(3) : below(30);
        pgk_composed want;
        ok &= compose_all(with, m, &want);
        seen[want.code]++;
        short_of_work += want.code == PGK_NO_ROOM && want.number != x.count;
    }
    check_with(ok, with, "composing, by the rule, in every placement");
    check_with(seen[0] && seen[7] && seen[8] && seen[11] && seen[13] && seen[14], with, "composing met codes 0, 7, 8, 11, 13, 14");
    check_with(with ? short_of_work > 0 : short_of_work == 0, with, "composing met NoRoom for working memory, where there is any");
}

/* Longer ones: inner tables that are sorted, sorted but for one token, and in no order; outer tokens that follow each other there, or
 * leap; and many names. */
static void long_composing(int with, unsigned rounds) {
    int ok = 1;
    unsigned named = 0, added = 0;
    for (unsigned r = 0; r < rounds; r++) {
        enum { MOST = 100 };
        uint8_t xt[LETTERS], yt[LETTERS];
        size_t xe[MOST], ye[MOST];
        uint32_t o[MOST * W], in[MOST * W], line = 0, col = 0, order = below(3), letters = 1 + below(4);
        names x = some(xt, xe, MOST, letters), y = some(yt, ye, MOST, letters);
        for (size_t k = 0; k < MOST * W; k += W) {
            if (below(20) == 0) { line++; col = 0; }
            col += below(3);
            in[k] = order ? line : below(6);
            in[k + 1] = order ? col : below(4) ? below(40) : any();
            in[k + 2] = any(); in[k + 3] = any(); in[k + 4] = below(8) ? below(3) : none; in[k + 5] = below(8) ? none : below(MOST); in[k + 6] = any();
        }
        if (order == 2) memcpy(in + W * below(MOST), in + W * below(MOST), 8);
        line = col = 0;
        for (size_t k = 0; k < MOST * W; k += W) {
            uint32_t step = below(16);
            if (step == 0) { line = below(8); col = below(50); }
            else if (step == 1) { line++; col = 0; }
            else col += below(4);
            o[k] = any(); o[k + 1] = any(); o[k + 2] = step == 2 ? none : line; o[k + 3] = step == 2 ? any() : col;
            o[k + 4] = below(12) ? below(2) : none; o[k + 5] = below(12) ? below((uint32_t)x.count + 2) : none; o[k + 6] = any();
        }
        maps m = { o, W * below(MOST + 1), below(2), x, in, W * below(MOST + 1), y, 0, x.count + below(3), pgk_work_places(y.count, x.count) + below(3) };
        m.result_len = m.outer_len + below(5);
        pgk_composed want;
        ok &= compose_all(with, m, &want);
        if (want.code == PGK_DONE) { named += y.count > 0; added += want.added > 0; }
    }
    check_with(ok, with, "composing over tables that are sorted or not, by the rule, in every placement");
    check_with(named > rounds / 2 && added > rounds / 8, with, "composing met names of both lists");
}

/* The names of result ids. */
static void naming(unsigned rounds) {
    int ok = 1;
    unsigned hits[2] = { 0 }, misses = 0;
    for (unsigned r = 0; r < rounds; r++) {
        uint8_t xt[LETTERS], yt[LETTERS];
        size_t xe[8], ye[8];
        names x = some(xt, xe, 6, 2), y = some(yt, ye, 6, 2);
        uint32_t added[8];
        size_t count = below(8);
        for (size_t k = 0; k < count; k++) added[k] = below(8) ? below(7) : any();
        for (place i = FIRST; i < PLACES; i++) {
            place wide = i == HEAP ? LAST : i;
            lent a = lend(pens[0], i, added, 4 * count, 0), e = lend(pens[1], wide, xe, 8 * x.count, 0), f = lend(pens[2], wide, ye, 8 * y.count, 0),
                p = lend(pens[3], i, xt, x.len, 0), q = lend(pens[4], i, yt, y.len, 0);
            for (uint32_t k = 0; k < 16; k++) {
                uint32_t id = k < 14 ? k : k == 14 ? none : any();
                pgk_name n = pgk_name_of(q.at, y.len, (size_t *)f.at, y.count, p.at, x.len, (size_t *)e.at, x.count, (uint32_t *)a.at, count, id);
                pgk_name v = named(y, x, added, count, id);
                ok &= memcmp(&n, &v, sizeof n) == 0;
                if (v.found) hits[v.outer]++;
                else misses++;
            }
            ok &= back(a, NULL) & back(e, NULL) & back(f, NULL) & back(p, NULL) & back(q, NULL);
        }
    }
    check(ok && hits[0] && hits[1] && misses, "names of result ids, by the rule");
}

/* Comparing by the rule. Each token has a place among those at its position: how many of them stand before it. */
static size_t place_of(const uint32_t *k, size_t t) {
    size_t place = 0;
    for (size_t i = 0; i < t; i++) place += memcmp(k + W * i, k + W * t, 8) == 0;
    return place;
}

/* The token at this place of a position, or none. */
static size_t token_at(const uint32_t *k, size_t tokens, const uint32_t *position, size_t place) {
    for (size_t t = 0; t < tokens; t++)
        if (memcmp(k + W * t, position, 8) == 0 && place-- == 0) return t;
    return none;
}

/* The first token that stands before the one before it, or 0. */
static size_t fall_of(const uint32_t *k, size_t tokens) {
    for (size_t t = 1; t < tokens; t++, k += W)
        if (k[W] < k[0] || (k[W] == k[0] && k[W + 1] < k[1])) return t;
    return 0;
}

/* An entry, and where it comes: by line, column and place. */
typedef struct { uint32_t at[3], entry[3]; } difference;

static int by_position(const void *a, const void *b) {
    const difference *x = a, *y = b;
    for (int i = 0; i < 3; i++) if (x->at[i] != y->at[i]) return x->at[i] < y->at[i] ? -1 : 1;
    return 0;
}

enum { TOKENS = 64 };

/* The entries of two sorted tables: each token of left, and those of right that no token of left was held against; then in order. */
static size_t differences(const uint32_t *left, size_t n, const uint32_t *right, size_t m, uint32_t *out) {
    difference all[2 * TOKENS];
    size_t count = 0;
    for (uint32_t i = 0; i < n; i++) {
        const uint32_t *k = left + W * i;
        uint32_t place = (uint32_t)place_of(left, i), j = (uint32_t)token_at(right, m, k, place);
        if (j != none && memcmp(k, right + W * j, offsetof(pgk_token, segment)) == 0) continue;
        all[count++] = (difference){ { k[0], k[1], place }, { j == none ? PGK_ONLY_LEFT : PGK_DIFFERENT, i, j } };
    }
    for (uint32_t j = 0; j < m; j++) {
        const uint32_t *k = right + W * j;
        uint32_t place = (uint32_t)place_of(right, j);
        if (token_at(left, n, k, place) != none) continue;
        all[count++] = (difference){ { k[0], k[1], place }, { PGK_ONLY_RIGHT, none, j } };
    }
    qsort(all, count, sizeof *all, by_position);
    for (size_t i = 0; i < count; i++) memcpy(out + 3 * i, all[i].entry, sizeof all[i].entry);
    return count;
}

/* The whole answer. */
static pgk_compared compared(const uint32_t *left, size_t left_len, const uint32_t *right, size_t right_len, uint32_t *out, size_t room) {
    pgk_compared c = { PGK_DONE, 0, 0 };
    size_t n = left_len / W, m = right_len / W, fall = fall_of(left, n) != 0 ? fall_of(left, n) : fall_of(right, m);
    if (left_len % W != 0 || right_len % W != 0) return (pgk_compared){ PGK_BAD_TABLE, 0, 0 };
    if (fall != 0) return (pgk_compared){ PGK_UNSORTED, fall, 0 };
    c.entries = differences(left, n, right, m, out);
    return 3 * c.entries > room ? (pgk_compared){ PGK_NO_ROOM, 3 * c.entries, 0 } : c;
}

static int same_compared(pgk_compared a, pgk_compared b) { return a.code == b.code && a.number == b.number && a.entries == b.entries; }

/* One call in nine placements: this answer, no trace outside, and of what is lent to be written only the entries. */
static int compare_all(const uint32_t *left, size_t left_len, const uint32_t *right, size_t right_len, size_t room, pgk_compared want, const uint32_t *out) {
    int ok = 1;
    for (place i = FIRST; i < PLACES; i++)
        for (place j = FIRST; j < PLACES; j++) {
            uint32_t got[6 * TOKENS + 8];
            for (size_t k = 0; k < room; k++) got[k] = 0x5EED0000u + (uint32_t)k;
            lent a = lend(pens[0], i, left, 4 * left_len, 0), b = lend(pens[1], (place)((i + j) % PLACES), right, 4 * right_len, 0),
                c = lend(pens[2], j, got, 4 * room, 1);
            pgk_compared d = pgk_compare((uint32_t *)a.at, left_len, (uint32_t *)b.at, right_len, (uint32_t *)c.at, room);
            ok &= back(c, got) & back(a, NULL) & back(b, NULL);
            ok &= same_compared(d, want) && memcmp(got, out, 12 * want.entries) == 0;
            for (size_t k = 3 * want.entries; k < room; k++) ok &= got[k] == 0x5EED0000u + (uint32_t)k;
        }
    return ok;
}

/* A table of tokens that are spelled by two characters: a to f for positions on two lines, in order, and a step. How many numbers. */
static size_t spelled(const char *tokens, uint32_t *table) {
    size_t n = 0;
    for (; *tokens != 0; tokens += 2, n += W) {
        uint32_t at = (uint32_t)(tokens[0] - 'a');
        pgk_token t = { at / 3, at % 3, (uint32_t)(tokens[1] - '0'), 7, 0, none, any() };
        memcpy(table + n, &t, sizeof t);
    }
    return n;
}

/* What is answered by hand; each refusal, and their order. */
static void worked_comparing(void) {
    /* cut: so many numbers less. */
    static const struct { const char *left, *right; size_t left_cut, right_cut, room; pgk_compared want; uint32_t out[15]; const char *what; } rows[] = {
        { "", "", 0, 0, 0, { PGK_DONE, 0, 0 }, { 0 }, "comparing: nothing and nothing" },
        { "a1", "", 0, 0, 3, { PGK_DONE, 0, 1 }, { 1, 0, PGK_NONE }, "comparing: only left" },
        { "", "a1", 0, 0, 3, { PGK_DONE, 0, 1 }, { 2, PGK_NONE, 0 }, "comparing: only right" },
        { "a1", "a2", 0, 0, 3, { PGK_DONE, 0, 1 }, { 3, 0, 0 }, "comparing: different" },
        { "a1b2d3", "a1b2d3", 0, 0, 0, { PGK_DONE, 0, 0 }, { 0 }, "comparing: the same needs no room" },
        { "a1b2d3", "a1b2d3", 0, 0, 9, { PGK_DONE, 0, 0 }, { 0 }, "comparing: the same, and room" },
        { "a1", "b1", 0, 0, 8, { PGK_DONE, 0, 2 }, { 1, 0, PGK_NONE, 2, PGK_NONE, 0 }, "comparing: another column, left first" },
        { "d1", "c1", 0, 0, 6, { PGK_DONE, 0, 2 }, { 2, PGK_NONE, 0, 1, 0, PGK_NONE }, "comparing: another line, right first" },
        { "a1b2c3d4", "a1c3d5f6", 0, 0, 9, { PGK_DONE, 0, 3 }, { 1, 1, PGK_NONE, 3, 3, 2, 2, PGK_NONE, 3 }, "comparing: one goes, one changes, one comes" },
        { "a1a2", "a1a2a3", 0, 0, 3, { PGK_DONE, 0, 1 }, { 2, PGK_NONE, 2 }, "comparing: two and three at one position" },
        { "a1a2", "a3a1a2", 0, 0, 9, { PGK_DONE, 0, 3 }, { 3, 0, 0, 3, 1, 1, 2, PGK_NONE, 2 }, "comparing: one before two at one position" },
        { "a1a2", "a2a1", 0, 0, 6, { PGK_DONE, 0, 2 }, { 3, 0, 0, 3, 1, 1 }, "comparing: another order at one position" },
        { "a1b1b2b3c1", "b3b2c1", 0, 0, 9, { PGK_DONE, 0, 3 }, { 1, 0, PGK_NONE, 3, 1, 0, 1, 3, PGK_NONE }, "comparing: three and two amid others" },
        { "a1d1e1f1", "a1", 0, 0, 11, { PGK_DONE, 0, 3 }, { 1, 1, PGK_NONE, 1, 2, PGK_NONE, 1, 3, PGK_NONE }, "comparing: the rest of left" },
        { "a1", "a1d1e1f1", 0, 0, 9, { PGK_DONE, 0, 3 }, { 2, PGK_NONE, 1, 2, PGK_NONE, 2, 2, PGK_NONE, 3 }, "comparing: the rest of right" },
        { "a1", "", 0, 0, 2, { PGK_NO_ROOM, 3, 0 }, { 0 }, "comparing: NoRoom, a number too few" },
        { "a1b1", "a2c1", 0, 0, 6, { PGK_NO_ROOM, 9, 0 }, { 0 }, "comparing: NoRoom, an entry too few" },
        { "a1b1", "a2c1", 0, 0, 0, { PGK_NO_ROOM, 9, 0 }, { 0 }, "comparing: NoRoom, no room" },
        { "b1a1", "a1", 0, 0, 9, { PGK_UNSORTED, 1, 0 }, { 0 }, "comparing: Unsorted, left" },
        { "a1", "d1c1", 0, 0, 9, { PGK_UNSORTED, 1, 0 }, { 0 }, "comparing: Unsorted, right" },
        { "a1b1b1a1b1a1", "b1a1", 0, 0, 18, { PGK_UNSORTED, 3, 0 }, { 0 }, "comparing: Unsorted, left before right, the first that falls" },
        { "b1a1", "b1a1", 0, 0, 0, { PGK_UNSORTED, 1, 0 }, { 0 }, "comparing: Unsorted, a table and itself" },
        { "a1", "a1b1d1c1", 0, 0, 0, { PGK_UNSORTED, 3, 0 }, { 0 }, "comparing: Unsorted before NoRoom" },
        { "a1", "a1", 1, 0, 9, { PGK_BAD_TABLE, 0, 0 }, { 0 }, "comparing: BadTable, left" },
        { "a1", "a1", 0, 1, 9, { PGK_BAD_TABLE, 0, 0 }, { 0 }, "comparing: BadTable, right" },
        { "a1b1", "a1", 2, 0, 0, { PGK_BAD_TABLE, 0, 0 }, { 0 }, "comparing: BadTable, two tokens of six numbers" },
        { "b1a1", "a1", 0, 6, 9, { PGK_BAD_TABLE, 0, 0 }, { 0 }, "comparing: BadTable of right before Unsorted of left" },
        { "b1a1b1", "b1a1", 3, 0, 0, { PGK_BAD_TABLE, 0, 0 }, { 0 }, "comparing: BadTable before Unsorted and NoRoom" },
    };
    for (size_t i = 0; i < sizeof rows / sizeof *rows; i++) {
        uint32_t left[6 * W], right[6 * W], out[6 * TOKENS];
        size_t n = spelled(rows[i].left, left) - rows[i].left_cut, m = spelled(rows[i].right, right) - rows[i].right_cut;
        int ok = compare_all(left, n, right, m, rows[i].room, rows[i].want, rows[i].out);
        check(ok && same_compared(compared(left, n, right, m, out, rows[i].room), rows[i].want), rows[i].what);
    }

    /* Each number of a token by itself: the first two are the position, the next four are compared, the seventh is not. */
    int ok = 1;
    for (size_t field = 0; field < W; field++)
        for (uint32_t k = 0; k < 4; k++) {
            static const uint32_t numbers[4] = { 6, 2147483648u, PGK_NONE - 1, PGK_NONE };
            uint32_t left[W] = { 5, 5, 5, 5, 5, 5, 5 }, right[W] = { 5, 5, 5, 5, 5, 5, 5 };
            uint32_t moved_on[6] = { PGK_ONLY_LEFT, 0, none, PGK_ONLY_RIGHT, none, 0 }, changed[3] = { PGK_DIFFERENT, 0, 0 };
            right[field] = numbers[k];
            pgk_compared want = { PGK_DONE, 0, field < 2 ? 2 : field < 6 };
            ok &= compare_all(left, W, right, W, 3 * want.entries, want, field < 2 ? moved_on : changed);
        }
    check(ok, "comparing: six numbers, and not the seventh");

    /* What is only read may overlap: a table and itself, and a table and its rest. */
    uint32_t table[3 * W], out[9] = { 9, 9, 9, 9, 9, 9, 9, 9, 9 };
    spelled("a1b2c3", table);
    pgk_compared c = pgk_compare(table, 3 * W, table, 3 * W, out, 0);
    check(c.code == PGK_DONE && c.entries == 0 && out[0] == 9, "comparing: a table and itself");
    c = pgk_compare(table, 3 * W, table + W, 2 * W, out, 9);
    check(c.code == PGK_DONE && c.entries == 1 && out[0] == PGK_ONLY_LEFT && out[1] == 0 && out[2] == none && out[3] == 9, "comparing: a table and its rest");
}

/* Every sorted table of up to three tokens, of two kinds on three positions, and each against each: by the rule, with room exactly enough
 * and with a number too few; the other way round the mirrored entries; none exactly where the first six numbers agree. */
static void small_comparing(void) {
    enum { TABLES = 111 };
    static uint32_t tables[TABLES][3 * W];
    static size_t lengths[TABLES];
    size_t count = 0;
    int ok = 1, mirror = 1, agree = 1;
    unsigned kinds[4] = { 0 };
    for (uint32_t tokens = 0, numbers = 1; tokens <= 3; tokens++, numbers *= 6)
        for (uint32_t number = 0; number < numbers; number++) {
            char text[7] = { 0 };
            for (uint32_t t = 0, rest = number; t < tokens; t++, rest /= 6) {
                text[2 * t] = "ace"[rest % 6 / 2];
                text[2 * t + 1] = (char)('0' + rest % 2);
            }
            uint32_t table[3 * W];
            size_t n = spelled(text, table);
            if (fall_of(table, tokens) != 0) continue;
            if (count == TABLES) { check(0, "comparing: more small tables than there are"); return; }
            memcpy(tables[count], table, 4 * n);
            lengths[count++] = n;
        }
    for (size_t i = 0; i < count; i++)
        for (size_t j = 0; j < count; j++) {
            uint32_t want[18], out[19], back_again[18] = { 0 };
            size_t n = lengths[i], m = lengths[j], entries = differences(tables[i], n / W, tables[j], m / W, want);
            memset(out, MARK, sizeof out);
            pgk_compared c = pgk_compare(tables[i], n, tables[j], m, out, 3 * entries), d = pgk_compare(tables[j], m, tables[i], n, back_again, 18);
            ok &= c.code == PGK_DONE && c.number == 0 && c.entries == entries && memcmp(out, want, 12 * entries) == 0;
            for (size_t k = 3 * entries; k < 19; k++) ok &= out[k] == 0x01010101u * MARK;
            mirror &= d.code == PGK_DONE && d.number == 0 && d.entries == entries;
            for (size_t k = 0; k < 3 * entries; k += 3) {
                mirror &= back_again[k] == (want[k] == PGK_DIFFERENT ? PGK_DIFFERENT : PGK_ONLY_LEFT + PGK_ONLY_RIGHT - want[k]);
                mirror &= back_again[k + 1] == want[k + 2] && back_again[k + 2] == want[k + 1];
                kinds[want[k]]++;
            }
            agree &= (entries == 0) == (n == m && same_tokens(tables[i], tables[j], n / W));
            if (entries == 0) continue;
            memset(out, MARK, sizeof out);
            c = pgk_compare(tables[i], n, tables[j], m, out, 3 * entries - 1);
            ok &= c.code == PGK_NO_ROOM && c.number == 3 * entries && c.entries == 0;
            for (size_t k = 0; k < 19; k++) ok &= out[k] == 0x01010101u * MARK;
        }
    check(count == TABLES && ok, "comparing: every small pair, by the rule");
    check(mirror, "comparing: the other way round the mirrored entries");
    check(agree, "comparing: no entries exactly where the first six numbers agree");
    check(kinds[0] == 0 && kinds[1] > 1000 && kinds[2] == kinds[1] && kinds[3] > 1000, "comparing: met every kind");
}

/* Tables that fall at one token, each in turn, left and right: that one is told. */
static void falling_comparing(void) {
    static const char *const ways[] = { "comparing: a column falls", "comparing: a column falls to before all", "comparing: a line falls", "comparing: a line falls to before all" };
    enum { MOST = 130 };
    for (int way = 0; way < 4; way++) {
        uint32_t table[MOST * W] = { 0 }, out[3] = { 9, 9, 9 };
        int ok = 1;
        for (uint32_t t = 0; t < MOST; t++) {
            table[W * t] = way < 2 ? 3 : 2 * t + 2;
            table[W * t + 1] = way < 2 ? 10 * t + 10 : 5;
        }
        for (uint32_t tokens = 2; tokens <= MOST; tokens++)
            for (uint32_t at = 1; at < tokens; at++) {
                uint32_t *fallen = table + W * at, line = fallen[0], col = fallen[1];
                pgk_compared want = { PGK_UNSORTED, at, 0 }, d = { PGK_DONE, 0, 0 };
                ok &= same_compared(pgk_compare(table, W * at, table, W * at, out, 0), d);
                fallen[0] = way < 2 ? 3 : way == 2 ? 2 * at - 1 : 0;
                fallen[1] = way == 0 ? 10 * at - 5 : way == 1 ? 0 : 9;
                ok &= same_compared(pgk_compare(table, W * tokens, table, W * at, out, 3), want);
                ok &= same_compared(pgk_compare(table, W * at, table, W * tokens, out, 3), want);
                fallen[0] = line;
                fallen[1] = col;
            }
        check(ok && out[0] == 9 && out[1] == 9 && out[2] == 9, ways[way]);
    }
}

/* Tables at random, and what became of them: tokens that go, come, change and move, some of them out of order. */
static void random_comparing(unsigned rounds) {
    int ok = 1, most = 1;
    unsigned seen[23] = { 0 }, kinds[4] = { 0 }, alike = 0;
    for (unsigned r = 0; r < rounds; r++) {
        uint32_t left[TOKENS * W], right[TOKENS * W], out[6 * TOKENS], line = 0, col = 0, much = 1 + below(12);
        size_t n = W * below(TOKENS + 1), m = 0;
        for (size_t k = 0; k < n; k += W) {
            if (below(10) == 0) { line++; col = 0; }
            col += below(3);
            pgk_token t = { line, col, below(3), below(2), below(5) ? 0 : none, below(2) ? below(2) : none, any() };
            memcpy(left + k, &t, sizeof t);
        }
        for (size_t k = 0; k < n; k += W) {
            uint32_t edit = below(4 * much);
            if (edit == 0) continue;
            for (uint32_t copies = edit == 1 ? 2 : 1; copies > 0 && m < TOKENS * W; copies--, m += W) {
                memcpy(right + m, left + k, 4 * W);
                right[m + 6] = any();
                if (edit == 2) right[m + 2 + below(4)] = below(3);
                if (edit == 3) right[m + 1] += below(2);
            }
        }
        if (n != 0 && below(12) == 0) left[W * below((uint32_t)(n / W)) + below(2)] = below(4);
        if (n != 0 && below(20) == 0) n -= 1 + below(W - 1);
        if (m != 0 && below(20) == 0) m -= 1 + below(W - 1);
        /* Room that is always enough, then as much as is needed, and a little less or more. */
        pgk_compared want = compared(left, n, right, m, out, 6 * TOKENS);
        most &= 3 * want.entries <= 3 * (n / W + m / W);
        size_t room = below(4) == 0 ? 6 * TOKENS : below(3) ? 3 * want.entries + below(3) : below((uint32_t)(3 * want.entries) + 1);
        want = compared(left, n, right, m, out, room);
        ok &= compare_all(left, n, right, m, room, want, out);
        seen[want.code]++;
        alike += want.code == PGK_DONE && want.entries == 0 && n != 0;
        for (size_t k = 0; k < 3 * want.entries; k += 3) kinds[out[k]]++;
    }
    check(ok, "comparing: any tables, by the rule, in nine placements");
    check(most, "comparing: at most as many entries as tokens");
    check(seen[PGK_DONE] && seen[PGK_NO_ROOM] && seen[PGK_BAD_TABLE] && seen[PGK_UNSORTED], "comparing: met codes 0, 8, 11, 22");
    check(kinds[1] > rounds / 8 && kinds[2] > rounds / 8 && kinds[3] > rounds / 8 && alike > 0, "comparing: met every kind, and tables that agree");
}

/* Length 0 with any aligned address: here, of pages that cannot be read. */
static void empty(void) {
    uint8_t *shut = mmap(NULL, PAGE, PROT_NONE, MAP_PRIVATE | MAP_ANONYMOUS, -1, 0);
    int ok = 1;
    for (unsigned off = 0; off < 64; off += 4) {
        uint32_t *t = (uint32_t *)(shut + off);
        size_t *e = (size_t *)(shut + 2 * off);
        uint8_t *b = shut + off + 1;
        pgk_chunk c = { 0, 0, 1, 2, 3, 4, 5, 6 };
        ok &= same_decoded(pgk_decode(b, 0, 0, 0, t, 0), (pgk_decoded){ 0, 0, 0, 0 });
        ok &= same_decoded(pgk_decode_lenient(b, 0, none, none, t, 0), (pgk_decoded){ 0, 0, 0, 0 });
        ok &= same_decoded(pgk_decode_checked(b, 0, none, none, t, 0), (pgk_decoded){ 0, 0, 0, 0 });
        pgk_encoded w = pgk_encode(t, 0, c, b, 0);
        ok &= w.code == 0 && w.bytes == 0 && same_chunk(w.next, c);
        ok &= pgk_translate(t, 0, none, none, none).code == 0 && pgk_translate_tokens((pgk_token *)t, 0, none, none, none).code == 0;
        pgk_answer a = pgk_lookup(t, 0, none, none);
        ok &= a.code == 0 && a.number == none;
        for (int call = PLAIN; call < CALLS; call++) {
            a = calls[call](t, 0, t, 0, t, 0);
            ok &= a.code == 0 && a.number == 0;
        }
        pgk_composed g = pgk_compose(t, 0, 1, b, 0, e, 0, t, 0, b, 0, e, 0, t, 0, t, 0);
        ok &= g.code == 0 && g.number == 0 && g.added == 0;
        g = pgk_compose_with(t, 0, 1, b, 0, e, 0, t, 0, b, 0, e, 0, t, 0, t, 0, t, 0);
        ok &= g.code == 0 && g.number == 0 && g.added == 0;
        ok &= same_compared(pgk_compare(t, 0, t, 0, t, 0), (pgk_compared){ 0, 0, 0 });
        pgk_name n = pgk_name_of(b, 0, e, 0, b, 0, e, 0, t, 0, none);
        ok &= n.found == 0 && n.outer == 0 && n.start == 0 && n.end == 0;
        ok &= pgk_table_size(b, 0) == 0 && pgk_meets_premises(t, 0, 0, 0) == 1 && pgk_meets_checked_premises(t, 0, 0, 0) == 1;
    }
    check(ok, "length 0 with any aligned address");
    /* The header's idiom. */
    uint32_t dummy, *table = NULL;
    size_t count = 0;
    pgk_answer a = pgk_lookup(count ? table : &dummy, PGK_WIDTH * count, 0, 0);
    check(a.code == PGK_DONE && a.number == PGK_NONE, "a dummy where there is nothing to lend");
    uint32_t *positions = NULL;
    dummy = 9;
    for (int call = PLAIN; call < CALLS; call++) {
        a = calls[call](count ? table : &dummy, PGK_WIDTH * count, count ? positions : &dummy, 2 * count, &dummy, 0);
        check_many(a.code == PGK_DONE && a.number == 0 && dummy == 9, call, "a dummy where there are no positions");
    }
    pgk_compared c = pgk_compare(count ? table : &dummy, PGK_WIDTH * count, count ? table : &dummy, PGK_WIDTH * count, &dummy, 0);
    check(c.code == PGK_DONE && c.number == 0 && c.entries == 0 && dummy == 9, "a dummy where there is nothing to compare");
    munmap(shut, PAGE);
}

/* One token too many: refused by the length alone, so pages that cannot be read do. */
static void too_many(void) {
    size_t tokens = 4294967295u;
    uint32_t *t = mmap(NULL, 4 * W * tokens, PROT_NONE, MAP_PRIVATE | MAP_ANONYMOUS | MAP_NORESERVE, -1, 0);
    if ((void *)t == MAP_FAILED) { printf("no address space for 4294967295 tokens: left out\n"); return; }
    pgk_chunk c = { 0, 0, 0, 0, 0, 0, 0, 0 };
    uint8_t byte = 0;
    uint32_t number = 0;
    size_t end = 0;
    check(pgk_encode(t, W * tokens, c, &byte, 1).code == 11, "BadTable past 4294967294 tokens: encode");
    check(pgk_translate(t, W * tokens, 0, 0, 0).code == 11, "BadTable past 4294967294 tokens: translate");
    check(pgk_translate_tokens((pgk_token *)t, tokens, 0, 0, 0).code == 11, "BadTable past 4294967294 records");
    check(pgk_lookup(t, W * tokens, 0, 0).code == 11, "BadTable past 4294967294 tokens: lookup");
    for (int call = PLAIN; call < CALLS; call++) {
        check_many(calls[call](t, W * tokens, &number, 0, &number, 0).code == 11, call, "BadTable past 4294967294 tokens: lookup of many");
        /* Nor are positions read that are refused. */
        pgk_answer a = calls[call](&number, 0, t, 30064771065, &number, 0);
        check_many(a.code == 17 && a.number == 0, call, "OddList by the length alone");
        a = calls[call](&number, 0, t, 30064771064, &number, 0);
        check_many(a.code == 8 && a.number == 15032385532, call, "NoRoom past 32 bits: lookup of many");
    }
    check(pgk_meets_premises(t, W * tokens, none, none) == 0, "no premises past 4294967294 tokens");
    check(pgk_meets_checked_premises(t, W * tokens, none, none) == 0, "no premises of checked mode past 4294967294 tokens");
    check(pgk_compose(t, W * tokens, 0, &byte, 0, &end, 0, &number, 0, &byte, 0, &end, 0, &number, 0, &number, 0).code == 11, "BadTable: compose, outer");
    check(pgk_compose(&number, 0, 0, &byte, 0, &end, 0, t, W * tokens, &byte, 0, &end, 0, &number, 0, &number, 0).code == 11, "BadTable: compose, inner");
    check(pgk_compose(&number, 0, 0, &byte, 0, (size_t *)t, 2147483648u, &number, 0, &byte, 0, &end, 0, &number, 0, &number, 0).code == 14, "BadNames past 2147483647 names, outer");
    check(pgk_compose(&number, 0, 0, &byte, 0, &end, 0, &number, 0, &byte, 0, (size_t *)t, 2147483648u, &number, 0, &number, 0).code == 14, "BadNames past 2147483647 names, inner");
    check(pgk_compose_with(t, W * tokens, 0, &byte, 0, &end, 0, &number, 0, &byte, 0, &end, 0, &number, 0, &number, 0, &number, 0).code == 11, "BadTable: compose_with, outer");
    check(pgk_compose_with(&number, 0, 0, &byte, 0, &end, 0, t, W * tokens, &byte, 0, &end, 0, &number, 0, &number, 0, &number, 0).code == 11, "BadTable: compose_with, inner");
    check(pgk_compose_with(&number, 0, 0, &byte, 0, (size_t *)t, 2147483648u, &number, 0, &byte, 0, &end, 0, &number, 0, &number, 0, t, W * tokens).code == 14, "BadNames past 2147483647 names, outer, with working memory");
    check(pgk_compose_with(&number, 0, 0, &byte, 0, &end, 0, &number, 0, &byte, 0, (size_t *)t, 2147483648u, &number, 0, &number, 0, t, W * tokens).code == 14, "BadNames past 2147483647 names, inner, with working memory");
    check(same_compared(pgk_compare(t, W * tokens, &number, 0, &number, 0), (pgk_compared){ 11, 0, 0 }), "BadTable past 4294967294 tokens: compare, left");
    check(same_compared(pgk_compare(&number, 0, t, W * tokens, &number, 0), (pgk_compared){ 11, 0, 0 }), "BadTable past 4294967294 tokens: compare, right");
    check(pgk_name_of(&byte, 0, (size_t *)t, 2147483648u, &byte, 0, &end, 0, &number, 0, 0).found == 0, "no name in a list past 2147483647 names");
    /* An output table has no upper limit of tokens. */
    pgk_decoded d = pgk_decode((const uint8_t *)";;", 2, 0, 0, t, W * tokens);
    check(d.code == 0 && d.tokens == 0 && d.offset == 2, "an output table of 4294967295 places");
    munmap(t, 4 * W * tokens);
}

/* What is written need not be set: nothing of it is read. valgrind watches. */
static void unset(void) {
    uint32_t *t = malloc(4 * (2 * W + 1));
    pgk_decoded d = pgk_decode((const uint8_t *)"AAEG;C,", 7, 1, 0, t, 2 * W + 1);
    uint32_t sum = 0;
    for (size_t i = 0; i < W * d.tokens; i++) sum += t[i];
    check(d.code == 0 && d.tokens == 2 && sum == 0 + 2 + 3 + none + 1 + 1 + 2 + 3 + none + none + 5, "a table that was never set");
    uint32_t asked[4] = { 1, 1, 1, 0 };
    for (int call = PLAIN; call < CALLS; call++) {
        uint32_t *out = malloc(4 * 2);
        pgk_answer a = calls[call](t, W * d.tokens, asked, 4, out, 2);
        check_many(a.code == 0 && out[0] == 1 && out[1] == none, call, "places of many lookups that were never set");
        free(out);
    }
    /* Names that are added, equal, and found among the inner ones; the working memory has two places more than it needs. */
    size_t ends[3] = { 1, 2, 3 };
    uint32_t outer[4 * W], inner[W] = { 0, 0, 5, 6, 0, none, none }, *result = malloc(4 * (4 * W)), *added = malloc(4 * 3), *work = malloc(4 * 17);
    for (uint32_t k = 0; k < 4; k++) {
        pgk_token token = { 0, k, 0, k, 0, k, none };
        memcpy(outer + W * k, &token, sizeof token);
    }
    pgk_composed c = pgk_compose_with(outer, 4 * W, 1, (const uint8_t *)"aba", 3, ends, 3, inner, W, (const uint8_t *)"bxb", 3, ends, 3, result, 4 * W, added, 3, work, 17);
    check(c.code == 0 && c.added == 1 && added[0] == 0 && result[5] == 3 && result[W + 5] == 0 && result[2 * W + 5] == 3 && result[3 * W + 5] == none,
        "working memory that was never set");
    uint32_t *entries = malloc(4 * 6);
    pgk_compared e = pgk_compare(t, W * d.tokens, inner, W, entries, 6);
    check(e.code == 0 && e.entries == 2 && entries[0] == PGK_DIFFERENT && entries[1] == 0 && entries[2] == 0 && entries[3] == PGK_ONLY_LEFT
        && entries[4] == 1 && entries[5] == none, "numbers of entries that were never set");
    free(entries);
    free(work);
    free(added);
    free(result);
    free(t);
}

/* Which lengths are tables: multiples of the width, and not of the six numbers that a token had before. */
static void widths(void) {
    uint32_t table[6 * W] = { 0 }, result[6 * W], added = 0, work = 0;
    uint8_t byte[128];
    size_t end = 0;
    int ok = 1;
    for (size_t n = 0; n <= 6 * W; n++) {
        uint64_t code = n % 7 == 0 ? PGK_DONE : PGK_BAD_TABLE;
        ok &= pgk_encode(table, n, pgk_first_chunk((uint32_t)(n / 7)), byte, sizeof byte).code == code && pgk_lookup(table, n, 0, 0).code == code;
        for (int call = PLAIN; call < CALLS; call++) ok &= calls[call](table, n, result, 0, &added, 0).code == code;
        ok &= pgk_translate(table, n, 0, 0, 0).code == code && pgk_meets_premises(table, n, 1, 1) == (code == PGK_DONE);
        ok &= pgk_meets_checked_premises(table, n, 1, 1) == (code == PGK_DONE);
        ok &= pgk_compose(table, n, 1, byte, 0, &end, 0, table, 0, byte, 0, &end, 0, result, 6 * W, &added, 1).code == code;
        ok &= pgk_compose(table, 0, 1, byte, 0, &end, 0, table, n, byte, 0, &end, 0, result, 6 * W, &added, 1).code == code;
        ok &= pgk_compose_with(table, n, 1, byte, 0, &end, 0, table, 0, byte, 0, &end, 0, result, 6 * W, &added, 1, &work, 1).code == code;
        ok &= pgk_compose_with(table, 0, 1, byte, 0, &end, 0, table, n, byte, 0, &end, 0, result, 6 * W, &added, 1, &work, 1).code == code;
        ok &= pgk_compare(table, n, table, 0, result, 6 * W).code == code && pgk_compare(table, 0, table, n, result, 6 * W).code == code;
    }
    check(ok, "BadTable for 6 and 12 numbers and all that is no multiple of 7");
}

/* A segment at the last byte that a token can name, and at the next. One piece of memory is mapped again and again for the commas, so
 * that 4 GiB of text take 2 MiB, and each text has a process of its own, with pages of its own for what it changes. */
static void late(void) {
    static const struct { uint8_t first, last; size_t len; pgk_decoded want; uint32_t segment; const char *what; } rows[] = {
        { ',', 'C', 4294967295, { PGK_DONE, 0, 1, 4294967295 }, 4294967294u, "a segment at byte 4294967294" },
        { 'C', 'C', 4294967296, { PGK_TOO_BIG, 1, 1, 4294967295 }, 0, "TooBig at byte 4294967295, before TableFull" },
        { 'C', '!', 4294967296, { PGK_VLQ_LEFTOVER, 0, 1, 4294967296 }, 0, "and after what is wrong with the segment" },
    };
    enum { PIECE = 2097152, TEXTS = sizeof rows / sizeof *rows };
    size_t most = 4294967296;
    int file = memfd_create("commas", 0);
    uint8_t *text = mmap(NULL, most, PROT_NONE, MAP_PRIVATE | MAP_ANONYMOUS | MAP_NORESERVE, -1, 0), *commas = malloc(PIECE);
    memset(commas, ',', PIECE);
    int ready = (void *)text != MAP_FAILED && write(file, commas, PIECE) == PIECE;
    for (size_t at = 0; ready && at < most; at += PIECE)
        ready = mmap(text + at, PIECE, PROT_READ | PROT_WRITE, MAP_PRIVATE | MAP_FIXED, file, 0) == text + at;
    if (!ready) { printf("no text of 4 GiB\n"); exit(2); }
    pid_t child[TEXTS];
    for (size_t i = 0; i < TEXTS; i++) {
        if ((child[i] = fork()) != 0) continue;
        uint32_t table[W];
        text[0] = rows[i].first;
        text[rows[i].len - 1] = rows[i].last;
        pgk_decoded d = pgk_decode(text, rows[i].len, 0, 0, table, W);
        _exit(!same_decoded(d, rows[i].want) || table[6] != rows[i].segment);
    }
    for (size_t i = 0; i < TEXTS; i++) {
        int status = 1;
        check(waitpid(child[i], &status, 0) == child[i] && status == 0, rows[i].what);
    }
    munmap(text, most);
    close(file);
    free(commas);
}

/* The longest list of names, all of them empty: the places that are needed pass 32 bits. Working memory that is too short and the list
 * of added names are not touched, so pages that cannot be read do for both. */
static void longest(void) {
    size_t count = 2147483647, needed = pgk_work_places(0, count), end = 0;
    size_t *ends = mmap(NULL, 8 * count, PROT_READ, MAP_PRIVATE | MAP_ANONYMOUS | MAP_NORESERVE, -1, 0);
    uint32_t *added = mmap(NULL, 4 * count, PROT_NONE, MAP_PRIVATE | MAP_ANONYMOUS | MAP_NORESERVE, -1, 0);
    uint32_t *work = mmap(NULL, 4 * needed, PROT_NONE, MAP_PRIVATE | MAP_ANONYMOUS | MAP_NORESERVE, -1, 0), number = 0;
    uint8_t byte = 0;
    if ((void *)ends == MAP_FAILED || (void *)added == MAP_FAILED || (void *)work == MAP_FAILED) { printf("no list of 2147483647 names\n"); exit(2); }
    madvise(ends, 8 * count, MADV_HUGEPAGE);   /* where it is not known, it takes some seconds more */
    pgk_composed c = pgk_compose_with(&number, 0, 1, &byte, 0, ends, count, &number, 0, &byte, 0, &end, 0, &number, 0, added, count, work, needed - 1);
    check(c.code == PGK_NO_ROOM && c.number == 6442450941 && c.added == 0, "NoRoom past 32 bits: compose_with");
    munmap(work, 4 * needed);
    munmap(added, 4 * count);
    munmap(ends, 8 * count);
}

/* So many tokens, all of them at one position, that three times their number passes 32 bits. Each is only left, and what cannot be
 * written is not: pages that cannot be read do for it. */
static void vast(void) {
    size_t tokens = 1431655766, needed = 3 * tokens;
    uint32_t *left = mmap(NULL, 4 * W * tokens, PROT_READ, MAP_PRIVATE | MAP_ANONYMOUS | MAP_NORESERVE, -1, 0), number = 0;
    uint32_t *out = mmap(NULL, 4 * needed, PROT_NONE, MAP_PRIVATE | MAP_ANONYMOUS | MAP_NORESERVE, -1, 0);
    if ((void *)left == MAP_FAILED || (void *)out == MAP_FAILED) { printf("no table of 1431655766 tokens\n"); exit(2); }
    madvise(left, 4 * W * tokens, MADV_HUGEPAGE);   /* where it is not known, it takes some seconds more */
    pgk_compared c = pgk_compare(left, W * tokens, &number, 0, out, needed - 1);
    check(c.code == PGK_NO_ROOM && c.number == 4294967298 && c.entries == 0, "NoRoom past 32 bits: compare");
    munmap(out, 4 * needed);
    munmap(left, 4 * W * tokens);
}

int main(int argc, char **argv) {
    unsigned rounds = argc > 1 ? (unsigned)strtoul(argv[1], NULL, 10) : 1000;
    for (int i = 0; i < 9; i++) pens[i] = new_pen();
    header();
    worked();
    texts(rounds);
    by_default(4 * rounds);
    sizing(rounds);
    writing(rounds);
    translating(rounds);
    looking(rounds);
    for (int call = PLAIN; call < CALLS; call++) {
        worked_many(call);
        small_many(call);
        falling_many(call);
        random_many(call, rounds);
    }
    premises(rounds);
    for (int with = 0; with < 2; with++) {
        worked_composing(with);
        small_composing(with, rounds);
        long_composing(with, rounds);
    }
    naming(rounds);
    worked_comparing();
    small_comparing();
    falling_comparing();
    random_comparing(rounds);
    empty();
    too_many();
    unset();
    widths();
    if (argc > 2 && strcmp(argv[2], "long") == 0) {
        late();
        longest();
        vast();
    }
    printf("%u passed, %u failed\n", passed, failed);
    return failed != 0;
}
