/* What the header's rules allow: NULL where a count is 0, texts that overlap in what is read, and where the texts of answers lie. */
#include "checks.h"

static void nothing_may_be_null(void)
{
    struct gix_glob_pattern pattern = GIX_GLOB_PATTERN_INIT;
    struct gix_glob_lines lines = gix_glob_lines_of(NULL, 0);
    struct gix_glob_decision by = GIX_GLOB_DECISION_INIT;
    struct gix_glob_state state = GIX_GLOB_STATE_INIT;
    struct gix_glob_attribute_line line = GIX_GLOB_ATTRIBUTE_LINE_INIT;
    struct gix_glob_macro macro = GIX_GLOB_MACRO_INIT;
    struct gix_glob_memory no_memory = gix_glob_memory_of(NULL, 0);
    const struct gix_glob_text none = gix_glob_text_of(NULL, 0);
    const struct gix_glob_path path = {OF("a"), false};
    struct gix_glob_list list = gix_glob_list_of(NULL, 0, none);
    const struct gix_glob_attributes all = gix_glob_attributes_of(NULL, 0, NULL, 0);
    static uint64_t block[256];
    check(!gix_glob_parse(none, &pattern), "no line", 0);
    gix_glob_parse_as_git(none, &pattern);
    check(pattern.text.len == 0 && !gix_glob_pattern_matches_path(&pattern, OF("a"), true, false), "a line of no bytes", 0);
    check(gix_glob_wildmatch(none, none, gix_glob_match_mode_of(0)) && gix_glob_matches(&pattern, none, gix_glob_match_mode_of(0)), "no bytes", 0);
    check(!gix_glob_matches_path(none, none, false, false), "no line, and no path", 0);
    check(gix_glob_parse_ignore_line(&lines, &pattern) == GIX_GLOB_LINE_END, "no file", 0);
    check(gix_glob_parse_ignore_line_as_git(&lines, &pattern) == GIX_GLOB_LINE_END, "no file", 1);
    check(gix_glob_parse_attribute_line(&lines, &no_memory, &line, &macro, true) == GIX_GLOB_LINE_END, "no file", 2);
    check(gix_glob_last_match(&list, OF("a"), false, false) == GIX_GLOB_NONE, "no pattern", 0);
    check(gix_glob_prepare_list(&list, block, sizeof block), "no pattern is prepared", 0);
    check(gix_glob_last_match(&list, OF("a"), false, false) == GIX_GLOB_NONE, "no pattern", 1);
    check(gix_glob_last_matches(&list, gix_glob_paths_of(NULL, 0), gix_glob_places_of(NULL, 0), false), "no path", 0);
    check(!gix_glob_decide_in_tree(gix_glob_lists_of(NULL, 0), none, false, false, &by), "no list, and no path", 0);
    check(!gix_glob_decide_in_tree(gix_glob_lists_of(&list, 1), OF("a"), false, false, &by), "no pattern decides", 0);
    check(gix_glob_attribute_of(&all, &path, none, gix_glob_texts_of(NULL, 0), gix_glob_marks_of(NULL, 0), false, &state) &&
              state.kind == GIX_GLOB_UNSPECIFIED, "no line, and no name", 0);
}

/* Pointers that stand for nothing are aligned as any array has to be. */
static void nothing_is_aligned(void)
{
    check((uintptr_t)gix_glob_some(NULL) % 8 == 0 && gix_glob_some("") != gix_glob_some(NULL), "an aligned pointer", 0);
}

/* The text of a pattern is a part of the line, not a text of the same bytes elsewhere. */
static void texts_lie_in_their_lines(void)
{
    static const char *const rows[] = {"a", "!a", "/a", "a/", "!/a/", "\\!a", "\\#", "//", "/", "!!a", "a b  ", "*"};
    for (size_t row = 0; row < COUNT_OF(rows); row++) {
        const struct gix_glob_text line = gix_glob_string(rows[row]);
        for (int as_git = 0; as_git < 2; as_git++) {
            struct gix_glob_pattern pattern = GIX_GLOB_PATTERN_INIT;
            if (as_git)
                gix_glob_parse_as_git(line, &pattern);
            else
                check(gix_glob_parse(line, &pattern), "the line has a pattern", row);
            const uint8_t *text = pattern.text.bytes;
            check(text >= line.bytes && text + pattern.text.len <= line.bytes + line.len, as_git ? "the text, as Git reads" : "the text", row);
        }
    }
}

/* What is read may overlap, in any way: a line that is its own path and base, a list that stands twice, a path as its own name. */
static void what_is_read_may_overlap(void)
{
    static const uint8_t bytes[] = "d/d/d";
    const struct gix_glob_text all = gix_glob_text_of(bytes, 5), base = gix_glob_text_of(bytes, 2), name = gix_glob_text_of(bytes, 1);
    struct gix_glob_pattern pattern = GIX_GLOB_PATTERN_INIT;
    struct gix_glob_decision by = GIX_GLOB_DECISION_INIT;
    struct gix_glob_state state = GIX_GLOB_STATE_INIT;
    struct gix_glob_text texts[8];
    bool marks[2];
    check(gix_glob_parse(name, &pattern) && pattern.text.bytes == bytes, "a line of a path", 0);
    check(gix_glob_matches_path(all, all, false, false) && gix_glob_wildmatch(all, all, gix_glob_match_mode_of(0)), "a line on itself", 0);
    const struct gix_glob_list list = gix_glob_list_of(&pattern, 1, base), lists[] = {list, list};
    check(gix_glob_decide_in_tree(gix_glob_lists_of(lists, 2), all, false, false, &by) && by.list == 1, "a list that stands twice", 0);
    const struct gix_glob_attribute_line line = {pattern, name};
    const struct gix_glob_attribute_list listed = gix_glob_attribute_list_of(&line, 1, base), twice[] = {listed, listed};
    const struct gix_glob_macro macros[] = {{name, all}, {name, all}};
    const struct gix_glob_attributes said = gix_glob_attributes_of(twice, 2, macros, 2);
    const struct gix_glob_path path = {all, false};
    check(gix_glob_attribute_of(&said, &path, name, gix_glob_texts_of(texts, 8), gix_glob_marks_of(marks, 2), false, &state) &&
              state.kind == GIX_GLOB_SET, "a path as an attribute's name", 0);
}

void memory(void)
{
    check(gix_glob_version() == GIX_GLOB_VERSION, "the version", 0);
    nothing_may_be_null();
    nothing_is_aligned();
    texts_lie_in_their_lines();
    what_is_read_may_overlap();
}
