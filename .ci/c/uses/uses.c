/* Each macro and each function that both headers give to a caller's own code, so that compilers can warn of them, in C and in C++. */
#include <gix_glob_rules.h>

#if GIX_GLOB_VERSION != GIX_GLOB_VERSION_MAJOR * 10000 + GIX_GLOB_VERSION_MINOR * 100 + GIX_GLOB_VERSION_PATCH
#error "the version isn't its parts"
#endif

static bool matches(struct gix_glob_text path)
{
    struct gix_glob_pattern pattern = GIX_GLOB_PATTERN_INIT;
    const struct gix_glob_match_mode mode = gix_glob_match_mode_of(GIX_GLOB_NO_MATCH_SLASH_LITERAL | GIX_GLOB_IGNORE_CASE);
    if (!gix_glob_parse(gix_glob_string("a"), &pattern) || pattern.first_wildcard_pos != GIX_GLOB_NONE || pattern.reading != GIX_GLOB_AS_CRATE)
        return false;
    gix_glob_parse_as_git(gix_glob_string("!/a*/"), &pattern);
    if (pattern.mode.bits != (GIX_GLOB_NO_SUB_DIR | GIX_GLOB_MUST_BE_DIR | GIX_GLOB_NEGATIVE | GIX_GLOB_ABSOLUTE) || pattern.reading != GIX_GLOB_AS_GIT)
        return false;
    return gix_glob_is_negative(&pattern) && !(pattern.mode.bits & GIX_GLOB_ENDS_WITH) && gix_glob_matches(&pattern, path, mode);
}

static bool decides(struct gix_glob_text path)
{
    struct gix_glob_pattern pattern = GIX_GLOB_PATTERN_INIT;
    struct gix_glob_lines lines = GIX_GLOB_LINES_INIT, all = gix_glob_lines_of("a", 1);
    struct gix_glob_decision by = GIX_GLOB_DECISION_INIT;
    const struct gix_glob_path asked = { GIX_GLOB_TEXT("a"), false };
    size_t place = GIX_GLOB_NONE;
    uint64_t block[512];
    struct gix_glob_list list;
    if (gix_glob_parse_ignore_line(&lines, &pattern) != GIX_GLOB_LINE_END || gix_glob_parse_ignore_line(&all, &pattern) != GIX_GLOB_LINE_PATTERN)
        return false;
    list = gix_glob_list_of(&pattern, 1, gix_glob_text_of(NULL, 0));
    return gix_glob_prepare_list(&list, block, sizeof block) &&
           gix_glob_last_matches(&list, gix_glob_paths_of(&asked, 1), gix_glob_places_of(&place, 1), false) &&
           gix_glob_decide_in_tree(gix_glob_lists_of(&list, 1), path, false, false, &by) && by.pattern == place;
}

static bool tells_states(void)
{
    struct gix_glob_attribute_line line = GIX_GLOB_ATTRIBUTE_LINE_INIT;
    struct gix_glob_macro macros[] = { GIX_GLOB_MACRO_BINARY, GIX_GLOB_MACRO_INIT };
    struct gix_glob_lines lines = gix_glob_lines_of("* binary", 8);
    struct gix_glob_memory memory = gix_glob_memory_of(NULL, 0);
    struct gix_glob_state state = GIX_GLOB_STATE_INIT;
    const struct gix_glob_path path = { GIX_GLOB_TEXT("a"), false };
    struct gix_glob_text texts[2];
    bool marks[1];
    struct gix_glob_attribute_list list;
    struct gix_glob_attributes all;
    if (gix_glob_parse_attribute_line(&lines, &memory, &line, &macros[1], true) != GIX_GLOB_LINE_PATTERN || state.kind != GIX_GLOB_UNSPECIFIED)
        return false;
    list = gix_glob_attribute_list_of(&line, 1, gix_glob_text_of(NULL, 0));
    all = gix_glob_attributes_of(&list, 1, macros, 1);
    return gix_glob_attribute_of(&all, &path, gix_glob_string("text"), gix_glob_texts_of(texts, 2), gix_glob_marks_of(marks, 1), false, &state) &&
           state.kind == GIX_GLOB_UNSET && state.kind != GIX_GLOB_SET && state.kind != GIX_GLOB_VALUE;
}

static bool keeps_rules(struct gix_glob_text path)
{
    struct gix_glob_rules_options options = GIX_GLOB_RULES_OPTIONS_INIT;
    struct gix_glob_rule rule = GIX_GLOB_RULE_INIT;
    struct gix_glob_rules *rules = gix_glob_rules_new(&options);
    const bool is_decided = rules && gix_glob_rules_add_file(rules, gix_glob_string(""), path) &&
                            gix_glob_rules_read_file(rules, gix_glob_string(""), "no/such/file") &&
                            gix_glob_rules_decide(rules, path, false, &rule) == GIX_GLOB_IGNORED && rule.line == 1;
    gix_glob_rules_free(rules);
    return is_decided && gix_glob_is_ignored(path, path, false) == GIX_GLOB_IGNORED;
}

int main(void)
{
    const struct gix_glob_text path = GIX_GLOB_TEXT("a");
    return !(gix_glob_version() == GIX_GLOB_VERSION && matches(path) && decides(path) && tells_states() && keeps_rules(path));
}
