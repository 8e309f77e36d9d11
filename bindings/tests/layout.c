/* The size, alignment and field offsets of each struct of the header, its constants, the places of working memory and its words, a
 * line each. */
#include <stdio.h>
#include <stddef.h>
#include "peghayrick.h"

#define TYPE(t) printf(#t " %zu %zu\n", sizeof(t), _Alignof(t))
#define CODE(c) printf(#c " %u %s\n", c, pgk_words(c))
#define FIELD(t, f) printf(#t "." #f " %zu %zu\n", offsetof(t, f), sizeof(((t *)0)->f))

int main(void) {
    TYPE(pgk_token);
    FIELD(pgk_token, dst_line);
    FIELD(pgk_token, dst_col);
    FIELD(pgk_token, src_line);
    FIELD(pgk_token, src_col);
    FIELD(pgk_token, source_id);
    FIELD(pgk_token, name_id);
    FIELD(pgk_token, segment);
    TYPE(pgk_chunk);
    FIELD(pgk_chunk, start);
    FIELD(pgk_chunk, end);
    FIELD(pgk_chunk, prev_dst_line);
    FIELD(pgk_chunk, prev_dst_col);
    FIELD(pgk_chunk, prev_src_line);
    FIELD(pgk_chunk, prev_src_col);
    FIELD(pgk_chunk, prev_name_id);
    FIELD(pgk_chunk, prev_source_id);
    TYPE(pgk_answer);
    FIELD(pgk_answer, code);
    FIELD(pgk_answer, number);
    TYPE(pgk_decoded);
    FIELD(pgk_decoded, code);
    FIELD(pgk_decoded, number);
    FIELD(pgk_decoded, tokens);
    FIELD(pgk_decoded, offset);
    TYPE(pgk_encoded);
    FIELD(pgk_encoded, code);
    FIELD(pgk_encoded, number);
    FIELD(pgk_encoded, bytes);
    FIELD(pgk_encoded, next);
    TYPE(pgk_composed);
    FIELD(pgk_composed, code);
    FIELD(pgk_composed, number);
    FIELD(pgk_composed, added);
    TYPE(pgk_compared);
    FIELD(pgk_compared, code);
    FIELD(pgk_compared, number);
    FIELD(pgk_compared, entries);
    TYPE(pgk_name);
    FIELD(pgk_name, found);
    FIELD(pgk_name, outer);
    FIELD(pgk_name, start);
    FIELD(pgk_name, end);
    TYPE(uint32_t[2]);   /* a position */
    TYPE(size_t);
    printf("PGK_NONE %llu\n", (unsigned long long)PGK_NONE);
    printf("PGK_WIDTH %u\n", PGK_WIDTH);
    printf("pgk_work_places %zu %zu\n", pgk_work_places(1, 0), pgk_work_places(0, 1));
    printf("PGK_ONLY_LEFT %u\nPGK_ONLY_RIGHT %u\nPGK_DIFFERENT %u\n", PGK_ONLY_LEFT, PGK_ONLY_RIGHT, PGK_DIFFERENT);
    printf("PGK_VERSION %u\n", PGK_VERSION);
    printf("PGK_VERSION_TEXT %s\n", PGK_VERSION_TEXT);
    CODE(PGK_VLQ_LEFTOVER);
    CODE(PGK_VLQ_OVERFLOW);
    CODE(PGK_BAD_SEGMENT_SIZE);
    CODE(PGK_BAD_SOURCE_REFERENCE);
    CODE(PGK_BAD_NAME_REFERENCE);
    CODE(PGK_WIDE_VALUE);
    CODE(PGK_TABLE_FULL);
    CODE(PGK_NO_ROOM);
    CODE(PGK_LINE_GOES_BACK);
    CODE(PGK_BAD_CHUNK);
    CODE(PGK_BAD_TABLE);
    CODE(PGK_TOO_BIG);
    CODE(PGK_MORE_THAN_ONE_SOURCE);
    CODE(PGK_BAD_NAMES);
    CODE(PGK_ODD_LIST);
    CODE(PGK_UNSORTED);
    printf("unknown %u %s\n", 99u, pgk_words(99));
    return 0;
}
