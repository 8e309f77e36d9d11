/* Peghayrick 0.9.0: the mapping core of source maps, for C99 and later and C++11 and later.
 *
 * Link with libpeghayrick.a (x86-64 Linux). The archive needs one symbol from outside, memset.
 *
 * What the caller owes. Of pointers, each of these; no call can test them, and breaking one is undefined:
 * - A pointer is not null, not even with length 0. With length 0 any address with the type's alignment
 *   does, so lend a dummy where there may be nothing (an empty std::vector, malloc of 0 bytes):
 *       uint32_t dummy;
 *       pgk_lookup(count ? table : &dummy, PGK_WIDTH * count, line, col)
 * - It has its type's alignment: four bytes for a table and every other list of uint32_t, eight for the ends of
 *   names, one for text.
 * - Its length is true. A length counts the things that the pointer points to, not bytes.
 * - Memory that is written overlaps no other memory lent in the same call.
 * Of values, nothing: every text, table, chunk, count and id is answered, however damaged.
 * In return nothing outside the lent memory is read or written, nothing is allocated, and nothing is kept
 * after a call. Text may hold any bytes, and needs no 0 at its end.
 *
 * Positions. Lines and columns count from 0, so a screen that counts from 1 adds 1 to both. Columns count
 * UTF-16 units, as bundlers write them: they are neither bytes nor characters.
 *
 * Tables. A table is a list of uint32_t, PGK_WIDTH a token, in the order of pgk_token; it needs no more than
 * the alignment of uint32_t. PGK_NONE as an id means none. A token without a source carries a source line and
 * column all the same: they say nothing of it and must not be shown. Test source_id first.
 * A table that is read must have a multiple of PGK_WIDTH numbers and at most 4294967294 tokens: hand in the
 * tokens that were written and no more. A table that is written has places for its length divided by
 * PGK_WIDTH, rounded down, and the numbers past them are kept. One token for each ',' and ';' of a text and
 * one more are always enough to decode it; pgk_table_size counts what it needs.
 *
 * Segments. A token's segment says which piece of text gave it: the bytes from that offset on, up to the next
 * ',' or ';' or the text's end. PGK_NONE means none. Decoding sets it, translating keeps it, composing takes
 * the outer token's; the writer, the lookup, the comparison and the premises pass it over, and on input it may be
 * any number.
 * It is an offset into the text that the token was decoded from, and no table says which that was. Joined
 * tables hold offsets into the text of each part, a composed one into the outer map's text, and none of them
 * into the text that pgk_encode writes. Keep those texts, and which part a token is of, to point into them.
 * What is written and read again has the same tokens but for the segments, so compare without them: a token
 * by its first offsetof(pgk_token, segment) bytes.
 *
 * Answers. Each answer has a code; 0 is done, pgk_words has a sentence for each. A refused decode keeps
 * the tokens before the refused segment; every other refusal writes nothing. Look at the code first: the
 * rest of a refused answer is not a result.
 *
 * Order of use: pgk_table_size, pgk_decode, then pgk_lookup or, for many positions, pgk_lookup_many_quick;
 * bindings/examples/stop.c does it. For a map and the map of its input: decode both, then pgk_compose_with, pgk_lookup and
 * pgk_name_of; bindings/examples/chain.c does it. For what changed between two maps: decode both, bring them to shared
 * ids, then pgk_compare; bindings/examples/changes.c does it.
 *
 * docs/RULES.md has the exact rules, docs/TRUST.md what of this is proved, what is tested and what is trusted.
 */
#ifndef PEGHAYRICK_H
#define PEGHAYRICK_H

#include <stddef.h>
#include <stdint.h>

#ifdef __cplusplus
extern "C" {
#endif

/* The version of this header: major * 1000000 + minor * 1000 + patch. pgk_version() has that of the archive. */
#define PGK_VERSION 9000u
#define PGK_VERSION_TEXT "0.9.0"

/* As an id, a segment or the index of a token that was looked up or compared: none. */
#define PGK_NONE 4294967295u

/* How many numbers a token has in a table. */
#define PGK_WIDTH 7u

/* Codes, and the number that comes with each; where none is named it is 0. */
#define PGK_DONE 0u
#define PGK_VLQ_LEFTOVER 1u          /* a value is cut short */
#define PGK_VLQ_OVERFLOW 2u          /* a value has a fourteenth digit */
#define PGK_BAD_SEGMENT_SIZE 3u      /* the field count modulo 2^32, or 0 for a negative column or line */
#define PGK_BAD_SOURCE_REFERENCE 4u  /* the source id before this segment */
#define PGK_BAD_NAME_REFERENCE 5u    /* the new name id, modulo 2^32 */
#define PGK_WIDE_VALUE 6u            /* the field, 0 to 4, whose value or sum is too wide (checked mode only) */
#define PGK_TABLE_FULL 7u            /* the table has too few places */
#define PGK_NO_ROOM 8u               /* places needed: bytes or numbers of out, or entries of found, added or work */
#define PGK_LINE_GOES_BACK 9u        /* index of the first such token */
#define PGK_BAD_CHUNK 10u            /* not start <= end <= token count */
#define PGK_BAD_TABLE 11u            /* not whole tokens, or too many */
#define PGK_TOO_BIG 12u              /* index of the first such token, in decoding too */
#define PGK_MORE_THAN_ONE_SOURCE 13u
#define PGK_BAD_NAMES 14u
#define PGK_ODD_LIST 17u             /* the list of positions has an odd length */
#define PGK_UNSORTED 22u             /* index of the first token that stands before the one before it */

/* Kinds of a difference, the first number of an entry that pgk_compare writes. */
#define PGK_ONLY_LEFT 1u
#define PGK_ONLY_RIGHT 2u
#define PGK_DIFFERENT 3u

/* segment: where the token's segment begins, a byte of the text that it was decoded from, or PGK_NONE. */
typedef struct { uint32_t dst_line, dst_col, src_line, src_col, source_id, name_id, segment; } pgk_token;

/* Tokens start to end (end not included) of a table, and the numbers that the first is written against. */
typedef struct { uint32_t start, end, prev_dst_line, prev_dst_col, prev_src_line, prev_src_col, prev_name_id, prev_source_id; } pgk_chunk;

typedef struct { uint64_t code, number; } pgk_answer;

/* tokens: how many were written. offset: the byte at fault, and the text's length when done. At fault is, by the code:
 *   PGK_VLQ_LEFTOVER           the ',' or ';' where a digit was due, or the text's end
 *   PGK_VLQ_OVERFLOW           the fourteenth digit
 *   PGK_BAD_SEGMENT_SIZE       the first digit of the field (number 0), or of the segment (a wrong count)
 *   PGK_BAD_SOURCE_REFERENCE, PGK_BAD_NAME_REFERENCE, PGK_WIDE_VALUE   the first digit of the field
 *   PGK_TOO_BIG                the first digit of the segment that begins too late
 *   PGK_TABLE_FULL             the first digit of the segment that has no place
 * The refused segment begins behind the last ',' or ';' before the offset, or with the text where there is none;
 * what stands before it gives the tokens that were written. */
typedef struct { uint64_t code, number, tokens, offset; } pgk_decoded;

/* bytes: how many were written. next: the state for the next chunk. A refusal: bytes 0, next as given. */
typedef struct { uint64_t code, number, bytes; pgk_chunk next; } pgk_encoded;

/* added: how many outer names were added. A refusal: added 0. */
typedef struct { uint64_t code, number, added; } pgk_composed;

/* entries: how many differences were written, three numbers each. A refusal: entries 0. */
typedef struct { uint64_t code, number, entries; } pgk_compared;

/* found 0: the id does not exist, the rest is 0. Else [start, end) of the inner (outer 0) or the
 * outer (outer 1) name text, also of an empty name. */
typedef struct { uint64_t found, outer, start, end; } pgk_name;

/* What a code says and what to do about it, a sentence without a full stop. */
static inline const char *pgk_words(uint64_t code) {
    static const char *const words[] = {
        "done",
        "a value is cut short: do not use this map, build the bundle and its map again and load both",
        "a value has more than 13 digits: do not use this map, build the bundle and its map again and load both",
        "a segment has not 1, 4 or 5 fields, or a column or line falls below 0: do not use this map, build the bundle and its map again and load both",
        "a segment refers to a source that the map does not list: hand in the count of sources first and that of names second; if they are right, do not use this map, build the bundle and its map again and load both",
        "a segment refers to a name that the map does not list: hand in the count of sources first and that of names second; if they are right, do not use this map, build the bundle and its map again and load both",
        "a number does not fit into 32 bits: do not use this map, build the bundle and its map again and load both",
        "the table has too few places: lend as many numbers as table_size counts for the text, or to compose as many as the outer table has",
        "there is too little room: lend as many places as the number says and call again",
        "a token is on a line below that of the token before it: sort the tokens by generated line, or begin the chunk with the state that the chunk before it returned",
        "the chunk does not lie within the table: its start must be at most its end, and its end at most the number of tokens",
        "the table does not hold whole tokens, or holds more than 4294967294: hand in WIDTH numbers a token, and only the tokens that were written",
        "a line or an id would become too large, or a segment begins at byte 4294967295 or later: to translate, use smaller offsets or join fewer maps (nothing was moved); to decode, build the bundle in parts, each with its own map",
        "the outer map has more than one source: compose only a map of a single input with that input's map",
        "a name list is broken: its ends must not fall, the last must lie within the text, and at most 2147483647 names are taken",
        "the list of positions has an odd length: hand in two numbers for each position, its line first and then its column",
        "a table is not sorted by generated line and then column: sort its tokens, and keep the order of those at one position; it is the left table where that compared with itself gives this code too, and else the right one",
        "the code is unknown: link the libpeghayrick.a that belongs to this version"
    };
    return words[code < 15u ? code : code == PGK_ODD_LIST ? 15u : code == PGK_UNSORTED ? 16u : 17u];
}

/* The chunk that writes a whole table of count tokens, or its first count tokens. */
static inline pgk_chunk pgk_first_chunk(uint32_t count) {
    pgk_chunk chunk = { 0, 0, 0, 0, 0, 0, 0, 0 };
    chunk.end = count;
    return chunk;
}

/* How many places of working memory pgk_compose_with needs, by the counts of the names of inner and of outer: two for each
 * inner name and three for each outer one, or SIZE_MAX where that does not fit. A place is a uint32_t. Above 2147483647 names
 * in a list that call is PGK_BAD_NAMES, however much is lent. */
static inline size_t pgk_work_places(size_t inner_ends_len, size_t outer_ends_len) {
    if (outer_ends_len > SIZE_MAX / 3 || inner_ends_len > (SIZE_MAX - 3 * outer_ends_len) / 2) return SIZE_MAX;
    return 2 * inner_ends_len + 3 * outer_ends_len;
}

/* The version of the archive. Where it is not PGK_VERSION, header and archive do not belong together: use neither. */
uint64_t pgk_version(void);

/* How many numbers a table needs so that no decode of the text says PGK_TABLE_FULL: PGK_WIDTH for each
 * segment (a run of bytes that are neither ',' nor ';'), or SIZE_MAX where that does not fit, which no
 * allocation gives. Never more than one token for each ',' and ';' and one more. It counts numbers, not
 * bytes, and 0 of them for a text without a segment. Reads the text once. */
size_t pgk_table_size(const uint8_t *text, size_t text_len);

/* Decodes a mappings text into a table, by the counts of sources and names that the map lists, sources first.
 * The decode that names no mode is checked, the one for a screen: no position loses bits unseen. It takes each value as
 * ECMA-426 does, by all of its digits: a magnitude of 2^31 or more is too wide, and minus zero ("B", "hA") is -2^31, by
 * which most sums fall below 0. Before 0.5.0 it was lenient: pgk_decode_lenient has those answers.
 * Refusals, the first that applies in a segment:
 *   PGK_VLQ_LEFTOVER, PGK_VLQ_OVERFLOW   in one of its values
 *   PGK_WIDE_VALUE                       one of its first five values is too wide
 *   PGK_BAD_SEGMENT_SIZE                 a column or line below 0, or not 1, 4 or 5 fields
 *   PGK_BAD_SOURCE_REFERENCE             the source id is below 0 or not below sources
 *   PGK_BAD_NAME_REFERENCE               the name id is not below names
 *   PGK_TOO_BIG                          the segment is good, and begins at byte 4294967295 or later, where no token can
 *                                        say so; the number is its token's index, so how many tokens are before it
 *   PGK_TABLE_FULL                       the segment is good, and no place is left
 * PGK_WIDE_VALUE has a second place, where a sum is kept: a column or line of 2^32 or more, a name id of 2^32 or more or
 * below 0. A refused map must not be looked up, though the tokens before the refused segment are in the table. The
 * table past the tokens written is kept. */
pgk_decoded pgk_decode(const uint8_t *text, size_t text_len, uint32_t sources, uint32_t names, uint32_t *table, size_t table_len);

/* The same, by name. */
pgk_decoded pgk_decode_checked(const uint8_t *text, size_t text_len, uint32_t sources, uint32_t names, uint32_t *table, size_t table_len);

/* Decodes likewise, but with the answers of the crate oxc_sourcemap 9.0.0: minus zero is 0, nothing is PGK_WIDE_VALUE,
 * and a column, line or name id that leaves 32 bits loses its upper bits, so a damaged map may give a wrong position.
 * Not for a screen. It takes texts that pgk_decode refuses; where a text has minus zero, it may also refuse what
 * pgk_decode takes, or give other positions. */
pgk_decoded pgk_decode_lenient(const uint8_t *text, size_t text_len, uint32_t sources, uint32_t names, uint32_t *table, size_t table_len);

/* Writes a chunk of a table as mappings text. The first chunk is pgk_first_chunk(end); for the next, take next and
 * set its end. A text that was decoded comes back without the ';' at its end, and without empty segments: no token
 * tells of them. The segment of a token is not read. Refusals, in this order:
 *   PGK_BAD_TABLE
 *   PGK_BAD_CHUNK        not start <= end <= token count
 *   PGK_LINE_GOES_BACK   a token of the chunk is on a line below the one before it (the first: below prev_dst_line)
 *   PGK_NO_ROOM          out is too short; the number says how many bytes are needed
 * Bytes of out past the count are kept. Lent 36 bytes for each token and one for each line that the chunk
 * advances, the call need not count the bytes first, and is quicker by a third. */
pgk_encoded pgk_encode(const uint32_t *table, size_t table_len, pgk_chunk chunk, uint8_t *out, size_t out_len);

/* 1 where what pgk_encode writes of the whole table surely reads back (pgk_decode_lenient, these counts) as that table but
 * for the segments, else 0, also for a bad table: lines do not go back, ids are PGK_NONE or below their counts, no name
 * stands without a source, and a token without a source repeats the source position of the latest token with one
 * (0, 0 before any). A table that was decoded by these counts should: that is no theorem, so ask. One that was made,
 * translated or composed need not. Of more than 4294967295 bytes nothing is said: there PGK_TOO_BIG may be the answer. */
uint64_t pgk_meets_premises(const uint32_t *table, size_t table_len, uint32_t sources, uint32_t names);

/* 1 where it surely reads back in checked mode too, by pgk_decode, else 0, also for a bad table: pgk_meets_premises says
 * 1, and each step that is written is below 2^31, up or down. There is a step to each generated column (on a new line
 * from 0), with a source to the source id, line and column (from the latest token with one, 0 before any), and with a
 * name to the name id (from the latest that is written). Where pgk_meets_premises alone says 1, pgk_decode refuses what
 * is written with PGK_WIDE_VALUE: ask before a screen relies on it. A table that was decoded in checked mode may have a
 * step of -2^31 too, from minus zero. */
uint64_t pgk_meets_checked_premises(const uint32_t *table, size_t table_len, uint32_t sources, uint32_t names);

/* Adds line_offset to each generated line, and the other offsets to each id other than PGK_NONE. Each segment is kept: it
 * is an offset into the text that this table was decoded from, also behind the tokens of other texts. Refusals:
 *   PGK_BAD_TABLE
 *   PGK_TOO_BIG   a line would pass 4294967295, or an id would reach it */
pgk_answer pgk_translate(uint32_t *table, size_t table_len, uint32_t line_offset, uint32_t source_offset, uint32_t name_offset);

/* The same over records. PGK_BAD_TABLE only past 4294967294 records. */
pgk_answer pgk_translate_tokens(pgk_token *tokens, size_t count, uint32_t line_offset, uint32_t source_offset, uint32_t name_offset);

/* The token at a generated position: among those on the line with a column at most col, the largest
 * column; among equals, the latest. The number is its index, or 4294967295 (PGK_NONE) if there is none.
 * The token found may have no source: then there is no source position to show.
 * The table may be in any order. Hand in the written part only, PGK_WIDTH numbers a token: places past it would be
 * found too. Cost: each lookup reads the line of every token, 0.4 to 1.2 ns each. Refusal: PGK_BAD_TABLE. */
pgk_answer pgk_lookup(const uint32_t *table, size_t table_len, uint32_t line, uint32_t col);

/* The tokens at many generated positions. positions has two numbers for each, its line first and then its column; found
 * takes one for each, in the same order: the index that pgk_lookup gives, or 4294967295 (PGK_NONE) if there is none. So it
 * equals one pgk_lookup after another. The positions may be in any order and may come again; no positions are done.
 * A token found is at table + PGK_WIDTH * (size_t)found[i]. It may have no source: then there is no source position to show.
 * positions_len counts numbers, so two a position, and found_len places. Refusals, in this order:
 *   PGK_BAD_TABLE
 *   PGK_ODD_LIST   positions_len is odd
 *   PGK_NO_ROOM    found has fewer places than there are positions; the number says how many are needed
 * Places past the positions are kept. found must not overlap table or positions; those two are only read.
 * The table may be in any order. Hand in the written part only, as to pgk_lookup. Cost: the table is read once for all
 * positions, in blocks of 64 tokens; a block is read again only for a position that lies within it. For one or two
 * positions pgk_lookup is quicker. Unless the table is known not to be sorted, call pgk_lookup_many_quick. */
pgk_answer pgk_lookup_many(const uint32_t *table, size_t table_len, const uint32_t *positions, size_t positions_len,
    uint32_t *found, size_t found_len);

/* The answers of pgk_lookup_many, by halving where the table is sorted. On every table and every list of positions the
 * code, the number and all of found are the same, and so are the refusals, in the order PGK_BAD_TABLE, PGK_ODD_LIST,
 * PGK_NO_ROOM, and what the caller owes of the lent memory.
 * It looks once whether the table is sorted by line and then by column; equal tokens may follow each other. If so, it
 * halves; if not, it does what pgk_lookup_many does. So the table may be in any order, and this is the one to call unless
 * the table is known not to be sorted. A decoded table is sorted by line always, and by column where the bundler wrote
 * columns that do not fall, as all usual ones do. Translating keeps the order, and composing that of the outer table.
 * Cost: on a sorted table one pass over it and some tokens more for each position, so little more than one pass unless the
 * table is short; on any other what pgk_lookup_many costs, and the tokens that are read until one falls. For one position
 * pgk_lookup reads less: the line of every token, where this reads line and column of each. */
pgk_answer pgk_lookup_many_quick(const uint32_t *table, size_t table_len, const uint32_t *positions, size_t positions_len,
    uint32_t *found, size_t found_len);

/* A name list is a text and the end of each name in it; a name begins where the one before it ends.
 *
 * Composes two maps: outer, from generated to intermediate code, and inner, from there to the source.
 * One result token is written for each outer token. Its name id counts the inner names, then the added ones:
 * added takes, in order, the ids of the outer names that were added. Its segment is the outer token's, also where it is
 * left without a source: an offset into the text of outer, and never into that of inner. Refusals, in this order:
 *   PGK_MORE_THAN_ONE_SOURCE   outer_sources is above 1
 *   PGK_BAD_TABLE              outer, then inner
 *   PGK_BAD_NAMES              outer, then inner: ends that fall, a last end past the text, more than 2147483647 names
 *   PGK_TABLE_FULL             result has fewer places than outer has tokens
 *   PGK_NO_ROOM                added is shorter than outer_ends; the number is the length needed
 * Places past the tokens and past the added names are kept.
 *
 * Cost: it looks once whether inner is sorted by line and then by column, as pgk_lookup_many_quick does. If so, each outer
 * token with a source halves inner, near the place of the one before it first, so the time is near-linear in both tables. If
 * not, each reads the line of every inner token, so the time grows with the product of both: compose such a map where the
 * bundle is built and not while a run waits. Each token that takes its outer name searches the inner names and the added
 * ones, one by one, unless the name taken before was the same: where names are many, pgk_compose_with is quicker. */
pgk_composed pgk_compose(const uint32_t *outer, size_t outer_len, uint32_t outer_sources,
    const uint8_t *outer_names, size_t outer_names_len, const size_t *outer_ends, size_t outer_ends_len,
    const uint32_t *inner, size_t inner_len,
    const uint8_t *inner_names, size_t inner_names_len, const size_t *inner_ends, size_t inner_ends_len,
    uint32_t *result, size_t result_len, uint32_t *added, size_t added_len);

/* The same with lent working memory, in which names are found by an index that is made once a call. The arguments of
 * pgk_compose come first, and on all of them the code, the number, the count of added names, result and added are the same.
 * There is one refusal more, after all others:
 *   PGK_NO_ROOM                work has fewer than pgk_work_places(inner_ends_len, outer_ends_len) places; that is the number
 * The number tells which list is too short: for added it is outer_ends_len, as above, and for work it is larger.
 * work may hold anything before the call, and may be longer than needed. A refusal leaves it as it was. What it holds after a
 * call that is done is left open; it may be lent to the next call as it is.
 *
 * Cost: that of pgk_compose but for the names. Each inner name is entered into the index once a call, and each outer name
 * that is taken is looked for once a call: beyond that one pass over the names, the time hardly depends on how many there are.
 * Names that meet in the index, as those chosen to do so, are compared one by one. With a handful of names, or where few
 * tokens take their outer name, pgk_compose does as well, and needs no memory. */
pgk_composed pgk_compose_with(const uint32_t *outer, size_t outer_len, uint32_t outer_sources,
    const uint8_t *outer_names, size_t outer_names_len, const size_t *outer_ends, size_t outer_ends_len,
    const uint32_t *inner, size_t inner_len,
    const uint8_t *inner_names, size_t inner_names_len, const size_t *inner_ends, size_t inner_ends_len,
    uint32_t *result, size_t result_len, uint32_t *added, size_t added_len, uint32_t *work, size_t work_len);

/* The name of a result id. Hand in the added names only, not the whole list that was lent to be filled.
 * Nothing is refused: found 0 for an unknown id or an unsound name list. */
pgk_name pgk_name_of(const uint8_t *inner_names, size_t inner_names_len, const size_t *inner_ends, size_t inner_ends_len,
    const uint8_t *outer_names, size_t outer_names_len, const size_t *outer_ends, size_t outer_ends_len,
    const uint32_t *added, size_t added_len, uint32_t id);

/* What changed between two tables, as those of a bundle before and after an edit. Each is sorted by line and then by column;
 * tokens at one position may follow each other. At one generated position the k-th token of left there is held against the
 * k-th of right there, by their first six numbers: the segment is not compared. Each difference gives an entry of three
 * numbers in out, its kind, the index in left and the index in right:
 *   PGK_ONLY_LEFT    left has a k-th token there and right has not; the index in right is 4294967295 (PGK_NONE)
 *   PGK_ONLY_RIGHT   right has one and left has not; the index in left is 4294967295 (PGK_NONE)
 *   PGK_DIFFERENT    both have one, and the source line, the source column, the source id or the name id differs
 * Entries come in order of position, and at one position by the place k. Entry i is at out + 3 * i. No entries mean that the
 * first six numbers agree throughout. Another order among the tokens at one position is a difference, of each place that differs.
 *
 * What is compared are numbers. Two maps have ids by their own lists: where the lists differ, bring both tables to shared ids
 * first, or a name that changed and kept its id is not seen, and one that stayed and has another id is a difference. The source
 * line and column of a token without a source say nothing and are compared too: decoding repeats there those of the latest token
 * with one, so set them to 0 in both tables. bindings/examples/changes.c does both. A step that is put in moves all that stands
 * behind it on its line of the bundle, and each token that moved is a difference.
 *
 * left_len and right_len count numbers, and so does out_len, three an entry. Refusals, in this order:
 *   PGK_BAD_TABLE   left, then right
 *   PGK_UNSORTED    left, then right: a token stands before the one before it, by line and then by column; the number is the
 *                   index of the first that does
 *   PGK_NO_ROOM     out has fewer than three numbers for each entry; the number says how many numbers are needed
 * Of which table the first two are is not said: it is left where pgk_compare of left and left gives the same code, and else right.
 * A refusal writes nothing. Numbers of out past the entries are kept. There are at most as many entries as both tables have
 * tokens, so 3 * (left_len / PGK_WIDTH + right_len / PGK_WIDTH) numbers are always enough; or lend none (a dummy), and
 * PGK_NO_ROOM has the number. out must not overlap left or right; those two are only read, and may be one.
 * Cost: each table is read once to see that it is sorted, and then both are walked side by side twice, to count the entries and
 * to write them: the time is linear in both. A decoded table is sorted by line always, and by column where the bundler wrote
 * columns that do not fall, as all usual ones do. */
pgk_compared pgk_compare(const uint32_t *left, size_t left_len, const uint32_t *right, size_t right_len, uint32_t *out, size_t out_len);

#ifdef __cplusplus
}
#endif

#endif
