// The header from C++: std::vector lends everything, empty ones by the header's idiom, since their data() may be null.
#include <cstdio>
#include <vector>
#include "peghayrick.h"

static unsigned passed, failed;

static void check(bool ok, const char *what) {
    if (ok) passed++;
    else { failed++; std::printf("FAILED: %s\n", what); }
}

static uint32_t number;
static uint8_t byte;
static uint32_t *lent(std::vector<uint32_t> &v) { return v.empty() ? &number : v.data(); }
static const uint8_t *lent(const std::vector<uint8_t> &v) { return v.empty() ? &byte : v.data(); }
static size_t end;
static const size_t *lent(const std::vector<size_t> &v) { return v.empty() ? &end : v.data(); }

static pgk_decoded decoded(const std::vector<uint8_t> &text, std::vector<uint32_t> &table) {
    table.resize(pgk_table_size(lent(text), text.size()));
    pgk_decoded d = pgk_decode(lent(text), text.size(), 1, 0, lent(table), table.size());
    table.resize(PGK_WIDTH * d.tokens);
    return d;
}

struct Names {
    std::vector<uint8_t> text;
    std::vector<size_t> ends;
};

// Composes with all of these lent.
static pgk_composed composed(std::vector<uint32_t> &outer, const Names &outer_names, std::vector<uint32_t> &inner, const Names &inner_names,
    std::vector<uint32_t> &result, std::vector<uint32_t> &added, std::vector<uint32_t> &work) {
    return pgk_compose_with(lent(outer), outer.size(), 1, lent(outer_names.text), outer_names.text.size(), lent(outer_names.ends), outer_names.ends.size(),
        lent(inner), inner.size(), lent(inner_names.text), inner_names.text.size(), lent(inner_names.ends), inner_names.ends.size(),
        lent(result), result.size(), lent(added), added.size(), lent(work), work.size());
}

// Compares with all of these lent.
static pgk_compared compared(std::vector<uint32_t> &left, std::vector<uint32_t> &right, std::vector<uint32_t> &out) {
    return pgk_compare(lent(left), left.size(), lent(right), right.size(), lent(out), out.size());
}

int main() {
    std::vector<uint32_t> table;
    pgk_decoded d = decoded({}, table);
    check(d.code == PGK_DONE && table.empty(), "an empty text needs no table");
    check(pgk_lookup(lent(table), table.size(), 0, 0).number == PGK_NONE, "a lookup in no table");
    std::vector<uint32_t> positions, found;
    pgk_answer many = pgk_lookup_many(lent(table), table.size(), lent(positions), positions.size(), lent(found), found.size());
    check(many.code == PGK_DONE && many.number == 0, "no positions in no table");
    many = pgk_lookup_many_quick(lent(table), table.size(), lent(positions), positions.size(), lent(found), found.size());
    check(many.code == PGK_DONE && many.number == 0, "no positions in no table, by the quick call");
    check(pgk_meets_premises(lent(table), table.size(), 0, 0) == 1, "the premises of no table");
    check(pgk_meets_checked_premises(lent(table), table.size(), 0, 0) == 1, "those of checked mode");

    d = decoded({ 'A', 'A', 'E', 'G', ';', 'C', ';' }, table);
    check(d.code == PGK_DONE && d.tokens == 2 && d.offset == 7, "two tokens");
    check(table[6] == 0 && table[PGK_WIDTH + 6] == 5, "where their segments begin");
    positions = { 0, 7, 1, 0, 1, 1, 0, 7 };
    many = pgk_lookup_many(lent(table), table.size(), lent(positions), positions.size(), lent(found), found.size());
    check(many.code == PGK_NO_ROOM && many.number == 4, "four positions and no places");
    found.resize(many.number);
    many = pgk_lookup_many(lent(table), table.size(), lent(positions), positions.size(), lent(found), found.size());
    check(many.code == PGK_DONE && found == std::vector<uint32_t>({ 0, PGK_NONE, 1, 0 }), "four positions");
    std::vector<uint32_t> quick;
    many = pgk_lookup_many_quick(lent(table), table.size(), lent(positions), positions.size(), lent(quick), quick.size());
    check(many.code == PGK_NO_ROOM && many.number == 4, "four positions and no places, by the quick call");
    quick.resize(many.number);
    many = pgk_lookup_many_quick(lent(table), table.size(), lent(positions), positions.size(), lent(quick), quick.size());
    check(many.code == PGK_DONE && quick == found, "four positions, by the quick call");
    check(pgk_meets_premises(lent(table), table.size(), 1, 0) == 1, "their premises");
    check(pgk_meets_checked_premises(lent(table), table.size(), 1, 0) == 1, "those of checked mode");
    std::vector<uint8_t> out(36 * d.tokens + 1);
    pgk_encoded e = pgk_encode(lent(table), table.size(), pgk_first_chunk(static_cast<uint32_t>(d.tokens)), out.data(), out.size());
    out.resize(e.bytes);
    check(out == std::vector<uint8_t>({ 'A', 'A', 'E', 'G', ';', 'C' }), "written back, without the ';' at the end");

    Names none, outer_names{ { 'a', 'b' }, { 1, 2 } }, inner_names{ { 'b' }, { 1 } };
    std::vector<uint32_t> nothing, result, added, work;
    pgk_composed c = composed(nothing, none, nothing, none, result, added, work);
    check(c.code == PGK_DONE && c.added == 0 && pgk_work_places(0, 0) == 0, "nothing over nothing");
    std::vector<uint32_t> outer{ 0, 1, 0, 5, 0, 0, 8, 0, 9, 0, 6, 0, 1, 9 };
    result.resize(outer.size());
    c = composed(outer, outer_names, table, inner_names, result, added, work);
    check(c.code == PGK_NO_ROOM && c.number == 2, "no places for the added names");
    added.resize(c.number);
    c = composed(outer, outer_names, table, inner_names, result, added, work);
    check(c.code == PGK_NO_ROOM && c.number == pgk_work_places(1, 2) && c.number == 8, "no working memory");
    work.resize(c.number);
    c = composed(outer, outer_names, table, inner_names, result, added, work);
    check(c.code == PGK_DONE && c.added == 1 && added[0] == 0, "a name is added, and one is an inner name");
    check(result == std::vector<uint32_t>({ 0, 1, 2, 3, 0, 1, 8, 0, 9, 2, 3, 0, 0, 9 }), "two tokens over two");
    pgk_name name = pgk_name_of(lent(inner_names.text), 1, lent(inner_names.ends), 1, lent(outer_names.text), 2, lent(outer_names.ends), 2, lent(added), c.added, result[5]);
    check(name.found == 1 && name.outer == 1 && name.start == 0 && name.end == 1, "the added name");

    std::vector<uint32_t> entries;
    pgk_compared changes = compared(nothing, nothing, entries);
    check(changes.code == PGK_DONE && changes.entries == 0, "nothing and nothing compared");
    changes = compared(table, outer, entries);
    check(changes.code == PGK_NO_ROOM && changes.number == 12, "two tokens and two, and no room");
    entries.resize(changes.number);
    changes = compared(table, outer, entries);
    check(changes.code == PGK_DONE && changes.entries == 4 && entries == std::vector<uint32_t>({ PGK_ONLY_LEFT, 0, PGK_NONE, PGK_ONLY_RIGHT, PGK_NONE, 0,
        PGK_ONLY_RIGHT, PGK_NONE, 1, PGK_ONLY_LEFT, 1, PGK_NONE }), "two tokens and two");
    changes = compared(table, table, nothing);
    check(changes.code == PGK_DONE && changes.entries == 0, "a table and itself");

    d = decoded({ 'A', 'A', 'E' }, table);
    check(d.code == PGK_BAD_SEGMENT_SIZE && table.empty(), "a refusal");
    check(pgk_words(d.code) != pgk_words(PGK_DONE), "its words");
    d = decoded({ 'g', 'g', 'g', 'g', 'g', 'g', 'E' }, table);
    check(d.code == PGK_WIDE_VALUE && table.empty(), "the decode that names no mode is checked");
    check(pgk_version() == PGK_VERSION, "the version");
    std::printf("%u passed, %u failed\n", passed, failed);
    return failed != 0;
}
