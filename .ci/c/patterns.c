/* Patterns that are read once: what stays as it was, what is no path, patterns behind the count, and parts that no line reads to. */
#include "checks.h"

/* A line without a pattern leaves the one that was read before. */
static void blank_lines_leave_the_pattern(void)
{
    static const struct gix_glob_text rows[] = {GIX_GLOB_TEXT(), GIX_GLOB_TEXT(" "), GIX_GLOB_TEXT("!"), GIX_GLOB_TEXT("! "), GIX_GLOB_TEXT("\t\r\n")};
    for (size_t row = 0; row < COUNT_OF(rows); row++) {
        struct gix_glob_pattern pattern = parsed("!/a[b]/");
        check(!gix_glob_parse(rows[row], &pattern), "a blank line has no pattern", row);
        check(is_text(pattern.text, OF("a[b]")), "the text stays", row);
        check(pattern.first_wildcard_pos == 1 && pattern.mode.bits == 29, "the place and the mode stay", row);
    }
}

static void what_is_no_path_is_matched_by_nothing(void)
{
    const struct gix_glob_pattern patterns[] = {parsed("**"), parsed("*")};
    const struct gix_glob_list list = gix_glob_list_of(patterns, 2, OF(""));
    static const struct {
        struct gix_glob_text path;
        bool is_dir;
    } rows[] = {{GIX_GLOB_TEXT(""), false}, {GIX_GLOB_TEXT(""), true},      {GIX_GLOB_TEXT("/a"), false}, {GIX_GLOB_TEXT("a//b"), false},
                {GIX_GLOB_TEXT("a/"), true}, {GIX_GLOB_TEXT("a/"), false}, {GIX_GLOB_TEXT("/"), true}};
    for (size_t row = 0; row < COUNT_OF(rows); row++) {
        const struct gix_glob_text path = rows[row].path;
        check(!gix_glob_pattern_matches_path(&patterns[0], path, rows[row].is_dir, false), "two stars and no path", row);
        check(!gix_glob_pattern_matches_path(&patterns[1], path, rows[row].is_dir, false), "a star and no path", row);
        check(gix_glob_last_match(&list, path, rows[row].is_dir, false) == GIX_GLOB_NONE, "the last, no path", row);
    }
}

static void patterns_behind_the_count_are_not_asked(void)
{
    const struct gix_glob_pattern list[] = {parsed("*"), parsed("!b"), parsed("a/")};
    static const size_t last[] = {GIX_GLOB_NONE, 0, 0, 2};
    for (size_t count = 0; count < COUNT_OF(last); count++) {
        const struct gix_glob_list some = gix_glob_list_of(list, count, OF(""));
        check(gix_glob_last_match(&some, OF("a"), true, false) == last[count], "the last of so many", count);
    }
}

/* Parts that no line reads to are safe, whatever they answer: both calls ask the same pattern. */
static void made_up_parts_are_safe(void)
{
    static const struct gix_glob_text texts[] = {GIX_GLOB_TEXT(""), GIX_GLOB_TEXT("*"), GIX_GLOB_TEXT("["), GIX_GLOB_TEXT("\\"), GIX_GLOB_TEXT("**/**/**"), GIX_GLOB_TEXT("a/b")};
    static const size_t places[] = {0, 1, 2, (size_t)1 << 40, GIX_GLOB_NONE};
    static const uint32_t modes[] = {0, GIX_GLOB_ENDS_WITH, GIX_GLOB_ABSOLUTE, 31, UINT32_MAX};
    for (size_t row = 0; row < COUNT_OF(texts) * COUNT_OF(places) * COUNT_OF(modes); row++) {
        const struct gix_glob_text text = texts[row % COUNT_OF(texts)];
        const size_t place = places[row / COUNT_OF(texts) % COUNT_OF(places)];
        const uint32_t mode = modes[row / COUNT_OF(texts) / COUNT_OF(places)];
        const struct gix_glob_pattern pattern = {text, place, {mode}, GIX_GLOB_AS_CRATE};
        const struct gix_glob_list list = gix_glob_list_of(&pattern, 1, OF(""));
        const bool is_matched = gix_glob_pattern_matches_path(&pattern, OF("a/b"), true, true);
        check(gix_glob_last_match(&list, OF("a/b"), true, true) == (is_matched ? 0 : GIX_GLOB_NONE), "made-up parts", row);
    }
}

void patterns(void)
{
    blank_lines_leave_the_pattern();
    what_is_no_path_is_matched_by_nothing();
    patterns_behind_the_count_are_not_asked();
    made_up_parts_are_safe();
}
