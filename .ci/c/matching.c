/* Texts and lines that are matched as they are: what matches nothing, parts that don't belong together, and texts that cost much. */
#include "checks.h"

enum { PLAIN = 0, PATH = GIX_GLOB_NO_MATCH_SLASH_LITERAL, FOLD = GIX_GLOB_IGNORE_CASE, OTHER_BITS = 0xff - PATH - FOLD };

static void other_bits_change_no_answer(void)
{
    static const struct {
        struct gix_glob_text pattern;
        size_t first_wildcard_pos;
        struct gix_glob_text value;
        uint8_t mode;
        bool answer;
    } rows[] = {
        {GIX_GLOB_TEXT("A"), GIX_GLOB_NONE, GIX_GLOB_TEXT("a"), OTHER_BITS, false},
        {GIX_GLOB_TEXT("A"), GIX_GLOB_NONE, GIX_GLOB_TEXT("a"), OTHER_BITS + FOLD, true},
        {GIX_GLOB_TEXT("*"), 0, GIX_GLOB_TEXT("a/b"), OTHER_BITS, true},
        {GIX_GLOB_TEXT("*"), 0, GIX_GLOB_TEXT("a/b"), OTHER_BITS + PATH, false},
        {GIX_GLOB_TEXT(), GIX_GLOB_NONE, GIX_GLOB_TEXT(), OTHER_BITS, true},
    };
    for (size_t row = 0; row < COUNT_OF(rows); row++) {
        const struct gix_glob_match_mode mode = gix_glob_match_mode_of(rows[row].mode);
        const struct gix_glob_pattern parts = {rows[row].pattern, rows[row].first_wildcard_pos, {0}, GIX_GLOB_AS_CRATE};
        const bool found = gix_glob_wildmatch(rows[row].pattern, rows[row].value, mode);
        const bool by_parts = gix_glob_matches(&parts, rows[row].value, mode);
        check(found == rows[row].answer, "a value, with other bits in the mode", row);
        check(by_parts == rows[row].answer, "a value by parts, with other bits in the mode", row);
    }
}

/* A place at the text's end or past it stands for none. */
static void parts_stand_for_themselves(void)
{
    static const struct {
        struct gix_glob_text text;
        uint32_t bits;
        size_t first_wildcard_pos;
        struct gix_glob_text value;
        uint8_t mode;
        bool answer;
    } rows[] = {
        {GIX_GLOB_TEXT("abc"), 0, 3, GIX_GLOB_TEXT("abc"), PLAIN, true},
        {GIX_GLOB_TEXT("abc"), 0, 4, GIX_GLOB_TEXT("abc"), PLAIN, true},
        {GIX_GLOB_TEXT("ab"), GIX_GLOB_NO_SUB_DIR, 3, GIX_GLOB_TEXT("ab"), PLAIN, true},
        {GIX_GLOB_TEXT("abc"), 0, GIX_GLOB_NONE, GIX_GLOB_TEXT("ABC"), FOLD, true},
        {GIX_GLOB_TEXT("abc"), 0, GIX_GLOB_NONE, GIX_GLOB_TEXT("ABC"), PATH, false},
        {GIX_GLOB_TEXT("*a"), GIX_GLOB_ENDS_WITH, 0, GIX_GLOB_TEXT("x/a"), PLAIN, true},
        {GIX_GLOB_TEXT("*a"), GIX_GLOB_ENDS_WITH, 0, GIX_GLOB_TEXT("x/a"), PATH, false},
        {GIX_GLOB_TEXT("x"), 31, 1, GIX_GLOB_TEXT("x"), PLAIN, true},
        /* (these don't belong together, and no reading of them matches) */
        {GIX_GLOB_TEXT("a*"), UINT32_MAX, GIX_GLOB_NONE, GIX_GLOB_TEXT("b"), OTHER_BITS + PATH + FOLD, false},
    };
    for (size_t row = 0; row < COUNT_OF(rows); row++) {
        const struct gix_glob_pattern parts = {rows[row].text, rows[row].first_wildcard_pos, {rows[row].bits}, GIX_GLOB_AS_CRATE};
        const bool found = gix_glob_matches(&parts, rows[row].value, gix_glob_match_mode_of(rows[row].mode));
        check(found == rows[row].answer, "a value by parts", row);
    }
}

/* Lines without a pattern, and what is no path: it is told as for a pattern that was read before. */
static void some_match_nothing(void)
{
    static const struct {
        struct gix_glob_text line, path;
    } rows[] = {
        {GIX_GLOB_TEXT(), GIX_GLOB_TEXT("a")}, {GIX_GLOB_TEXT(""), GIX_GLOB_TEXT("")},   {GIX_GLOB_TEXT(" \t"), GIX_GLOB_TEXT(" ")},
        {GIX_GLOB_TEXT("!"), GIX_GLOB_TEXT("")}, {GIX_GLOB_TEXT("*"), GIX_GLOB_TEXT("/a")}, {GIX_GLOB_TEXT("*"), GIX_GLOB_TEXT()}, {GIX_GLOB_TEXT("*"), GIX_GLOB_TEXT("a/")},
        {GIX_GLOB_TEXT("**"), GIX_GLOB_TEXT("a//b")}, {GIX_GLOB_TEXT("/a"), GIX_GLOB_TEXT("/a")},
    };
    for (size_t row = 0; row < COUNT_OF(rows); row++) {
        const struct gix_glob_text line = rows[row].line, path = rows[row].path;
        check(!gix_glob_matches_path(line, path, false, false), "no match", row);
        check(!gix_glob_matches_path(line, path, true, true), "no match, folded", row);
    }
}

enum { ROOM = 2048 };

/* A piece, so many times, and then the end. */
struct repeated {
    struct gix_glob_text piece;
    size_t times;
    struct gix_glob_text end;
};

static struct gix_glob_text written(uint8_t *room, const struct repeated *asked)
{
    size_t len = 0;
    for (; len < asked->piece.len * asked->times; len++)
        room[len] = asked->piece.bytes[len % asked->piece.len];
    for (size_t i = 0; i < asked->end.len; i++)
        room[len++] = asked->end.bytes[i];
    return (struct gix_glob_text){room, len};
}

static void hostile_texts_are_answered(void)
{
    static const struct {
        struct repeated pattern, value;
        uint8_t mode;
        bool answer;
    } rows[] = {
        {{GIX_GLOB_TEXT("*a"), 60, GIX_GLOB_TEXT("b")}, {GIX_GLOB_TEXT("a"), 200, GIX_GLOB_TEXT("")}, PLAIN, false},
        {{GIX_GLOB_TEXT("*a"), 60, GIX_GLOB_TEXT("b")}, {GIX_GLOB_TEXT("a"), 200, GIX_GLOB_TEXT("")}, FOLD, false},
        {{GIX_GLOB_TEXT("**/"), 40, GIX_GLOB_TEXT("x")}, {GIX_GLOB_TEXT("a/"), 40, GIX_GLOB_TEXT("x")}, PATH, true},
        {{GIX_GLOB_TEXT("["), 1000, GIX_GLOB_TEXT("]")}, {GIX_GLOB_TEXT("["), 1, GIX_GLOB_TEXT("")}, PATH, true},
    };
    static uint8_t pattern_room[ROOM], value_room[ROOM];
    for (size_t row = 0; row < COUNT_OF(rows); row++) {
        const struct gix_glob_text pattern = written(pattern_room, &rows[row].pattern), value = written(value_room, &rows[row].value);
        const bool answer = rows[row].answer;
        const struct gix_glob_match_mode mode = gix_glob_match_mode_of(rows[row].mode);
        const struct gix_glob_pattern parts = {pattern, 0, {0}, GIX_GLOB_AS_CRATE};
        check(gix_glob_wildmatch(pattern, value, mode) == answer, "a hostile text", row);
        check(gix_glob_matches(&parts, value, mode) == answer, "hostile parts", row);
        check(gix_glob_matches_path(pattern, value, false, true) == answer, "a hostile line", row);
    }
}

void matching(void)
{
    other_bits_change_no_answer();
    parts_stand_for_themselves();
    some_match_nothing();
    hostile_texts_are_answered();
}
