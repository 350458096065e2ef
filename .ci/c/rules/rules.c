/* The handle of gix_glob_rules.h: it answers as gix_glob_decide_in_tree does for the lists of all its files, on drawn files and paths; each
 * refusal of memory leaves it as it was; and files are read by their names. names.c and steps.c have the rest. Status 0 where all is so. */
#include "rules.h"
#include <gix_glob_rules.h>
#include <unistd.h>

enum { MOST_FILES = 40, MOST_PATTERNS = 8, ROUNDS = 3000, PATHS = 60 };

static int failed;

void check(bool is_so, const char *asked, size_t row)
{
    if (!is_so && failed++ < 20)
        printf("rules: %s: not so in row %zu\n", asked, row);
}

static uint32_t seed = 1;

static uint32_t drawn(uint32_t below)
{
    seed = seed * 1664525u + 1013904223u;
    return (seed >> 8) % below;
}

void *counting(void *of, void *memory, size_t old_size, size_t size)
{
    struct counted *counted = (struct counted *)of;
    if (size && ++counted->calls == counted->refused)
        return NULL;
    counted->bytes += size - old_size;
    if (size)
        return realloc(memory, size);
    free(memory);
    return NULL;
}

/* A path of few names, so that files and paths meet; with an end. */
static size_t draw_path(char *room, uint32_t most, const char *end)
{
    static const char *const names[] = { "a", "b", "A", "ab", "B", "c.o", "x" };
    size_t len = 0;
    for (uint32_t parts = drawn(most) + 1; parts > 0; parts--)
        len += (size_t)sprintf(room + len, "%s%s", names[drawn(7)], parts > 1 ? "/" : end);
    return len;
}

static size_t draw_file(char *room)
{
    static const char *const marks[] = { "", "!", "", "/", "" }, *const ends[] = { "", "/", "*", "" };
    size_t len = 0;
    for (uint32_t lines = drawn(MOST_PATTERNS); lines > 0; lines--) {
        len += (size_t)sprintf(room + len, "%s", marks[drawn(5)]);
        len += draw_path(room + len, 2, ends[drawn(4)]);
        room[len++] = '\n';
    }
    return len;
}

static struct gix_glob_list read_list(struct gix_glob_text file, struct gix_glob_text base, struct gix_glob_pattern *patterns, size_t *numbers)
{
    struct gix_glob_lines lines = gix_glob_lines_of(file.bytes, file.len);
    size_t count = 0;
    patterns[0] = (struct gix_glob_pattern)GIX_GLOB_PATTERN_INIT;
    for (enum gix_glob_line line; (line = gix_glob_parse_ignore_line_as_git(&lines, &patterns[count])) != GIX_GLOB_LINE_END;)
        if (line == GIX_GLOB_LINE_PATTERN) {
            numbers[count++] = lines.number;
            patterns[count] = (struct gix_glob_pattern)GIX_GLOB_PATTERN_INIT;
        }
    return gix_glob_list_of(patterns, count, base);
}

/* Rules of drawn files, and the same files as lists. */
static void answers_are_those_of_all_lists(size_t round)
{
    static struct gix_glob_pattern patterns[MOST_FILES][MOST_PATTERNS + 1];
    static size_t numbers[MOST_FILES][MOST_PATTERNS + 1];
    static char bases[MOST_FILES][64], files[MOST_FILES][512], path[128];
    static struct gix_glob_list lists[MOST_FILES];
    struct counted counted = { 0, 0, 0 };
    struct gix_glob_rules_options options = GIX_GLOB_RULES_OPTIONS_INIT;
    const size_t count = drawn(MOST_FILES);
    const bool has_root = drawn(3) == 0;
    options.fold = drawn(2);
    options.allocator.resize = counting;
    options.allocator.of = &counted;
    options.root = gix_glob_string(has_root ? "r/t/" : "");
    struct gix_glob_rules *rules = gix_glob_rules_new(&options);
    for (size_t i = 0; i < count; i++) {
        const size_t base_len = drawn(3) ? draw_path(bases[i], 4, "/") : 0, len = draw_file(files[i]);
        const struct gix_glob_text base = gix_glob_text_of(bases[i], base_len), file = gix_glob_text_of(files[i], len);
        char outer[80];
        const size_t outer_len = (size_t)sprintf(outer, "%s%.*s", has_root ? "r/t/" : "", (int)(base_len - (drawn(2) && base_len)), bases[i]);
        lists[i] = read_list(file, base, patterns[i], numbers[i]);
        check(gix_glob_rules_add_file(rules, gix_glob_text_of(outer, outer_len), file), "a file is added", round);
    }
    for (size_t row = 0; row < PATHS; row++) {
        const size_t front = has_root ? (size_t)sprintf(path, "r/t/") : 0, len = draw_path(path + front, 6, "");
        const bool is_dir = drawn(2);
        struct gix_glob_decision by = GIX_GLOB_DECISION_INIT;
        struct gix_glob_rule rule = GIX_GLOB_RULE_INIT;
        const bool is_decided = gix_glob_decide_in_tree(gix_glob_lists_of(lists, count), gix_glob_text_of(path + front, len), is_dir, options.fold, &by);
        const enum gix_glob_verdict verdict = gix_glob_rules_decide(rules, gix_glob_text_of(path, front + len), is_dir, &rule);
        check((verdict != GIX_GLOB_UNDECIDED) == is_decided && (rule.pattern != NULL) == is_decided, "a line decides", round);
        if (is_decided && rule.pattern) {
            check(rule.file == by.list && rule.line == numbers[by.list][by.pattern], "which line decides", round);
            check((verdict == GIX_GLOB_KEPT) == gix_glob_is_negative(&patterns[by.list][by.pattern]), "what it says", round);
        }
    }
    check(!has_root || gix_glob_rules_decide(rules, gix_glob_string("r/tt/a"), false, NULL) == GIX_GLOB_UNDECIDED, "outside of the root", round);
    check(!has_root || !gix_glob_rules_add_file(rules, gix_glob_string("r"), gix_glob_string("*")), "a file outside of the root", round);
    gix_glob_rules_free(rules);
    check(counted.bytes == 0, "all memory is given back", round);
}

/* Each call for memory is refused in turn: the file isn't added, the answers stay, and the next try succeeds. */
static void refusals_change_nothing(void)
{
    static const char *const folders[] = { "", "a/b", "a", "", "a/b/c", "b", "c", "d", "e", "f", "g" };
    const struct gix_glob_text file = gix_glob_string("x\n!*.o\ny\nz\nw\n"), path = gix_glob_string("a/b/c/x");
    for (size_t refused = 1; refused < 200; refused++) {
        struct counted counted = { 0, 0, refused };
        struct gix_glob_rules_options options = GIX_GLOB_RULES_OPTIONS_INIT;
        options.root = gix_glob_string("r");
        options.allocator.resize = counting;
        options.allocator.of = &counted;
        struct gix_glob_rules *rules = gix_glob_rules_new(&options);
        for (size_t i = 0; rules && i < sizeof folders / sizeof *folders; i++) {
            char folder[16];
            struct gix_glob_rule before = GIX_GLOB_RULE_INIT, after = GIX_GLOB_RULE_INIT;
            const struct gix_glob_text of = gix_glob_text_of(folder, (size_t)sprintf(folder, "r%s%s", *folders[i] ? "/" : "", folders[i]));
            gix_glob_rules_decide(rules, gix_glob_string("r/a/b/c/x"), false, &before);
            if (!gix_glob_rules_add_file(rules, of, file)) {
                gix_glob_rules_decide(rules, gix_glob_string("r/a/b/c/x"), false, &after);
                check(before.pattern == after.pattern && counted.calls >= refused, "a refusal changes nothing", refused);
                check(gix_glob_rules_add_file(rules, of, file), "the next try succeeds", refused);
            }
        }
        check(!rules || gix_glob_rules_decide(rules, gix_glob_string("r/a/b/c/x"), false, NULL) == GIX_GLOB_IGNORED, "the answer", refused);
        gix_glob_rules_free(rules);
        check(counted.bytes == 0, "all memory is given back", refused);
    }
    check(gix_glob_is_ignored(file, path, false) == GIX_GLOB_IGNORED, "one file", 0);
    check(gix_glob_is_ignored(file, gix_glob_string("a.o"), false) == GIX_GLOB_KEPT, "one file", 1);
    check(gix_glob_is_ignored(gix_glob_text_of(NULL, 0), path, false) == GIX_GLOB_UNDECIDED, "no file", 0);
}

/* Where many files lie on the way a question takes memory: a refusal is told, and the next try answers. */
static void refused_questions_are_told(void)
{
    for (size_t refused = 0; refused < 3; refused++) {
        struct counted counted = { 0, 0, 0 };
        struct gix_glob_rules_options options = GIX_GLOB_RULES_OPTIONS_INIT;
        struct gix_glob_rule rule = GIX_GLOB_RULE_INIT;
        options.allocator.resize = counting;
        options.allocator.of = &counted;
        struct gix_glob_rules *rules = gix_glob_rules_new(&options);
        for (size_t i = 0; i <= GIX_GLOB_RULES_FEW; i++) {
            check(gix_glob_rules_add_file(rules, gix_glob_string(i % 2 ? "" : "a"), gix_glob_string(i % 2 ? "!x\n" : "x\n")), "a file is added", i);
            counted.calls = i < GIX_GLOB_RULES_FEW ? 0 : counted.calls;
            const enum gix_glob_verdict verdict = gix_glob_rules_decide(rules, gix_glob_string("a/x"), false, &rule);
            check(verdict == (i % 2 ? GIX_GLOB_KEPT : GIX_GLOB_IGNORED) && rule.file == i, "the last file decides", i);
            check(i >= GIX_GLOB_RULES_FEW || !counted.calls, "few files are asked without memory", i);
        }
        const size_t bytes = counted.bytes;
        counted.refused = counted.calls + refused;
        const enum gix_glob_verdict verdict = gix_glob_rules_decide(rules, gix_glob_string("a/x"), false, &rule);
        check(verdict == (refused ? GIX_GLOB_NO_MEMORY : GIX_GLOB_IGNORED) && (rule.pattern != NULL) == !refused, "a refusal is told", refused);
        check(counted.bytes == bytes, "a question keeps nothing", refused);
        check(gix_glob_rules_decide(rules, gix_glob_string("a/x"), false, &rule) == GIX_GLOB_IGNORED, "the next try answers", refused);
        gix_glob_rules_free(rules);
        check(counted.bytes == 0, "all memory is given back", refused);
    }
}

/* What isn't there and what is a directory count as files without lines; what can't be read isn't added; and memory may be refused. */
static void files_are_read_by_their_names(void)
{
    char name[] = "rulesXXXXXX", below[32], too_long[5000];
    const int written = mkstemp(name);
    const struct gix_glob_text top = gix_glob_string("");
    check(written >= 0 && write(written, "a\n\n!*.o\0\nb", 10) == 10 && !close(written), "the file is written", 0);
    sprintf(below, "%s/x", name);
    memset(too_long, 'a', sizeof too_long);
    too_long[sizeof too_long - 1] = 0;
    for (size_t refused = 1; refused < 40; refused++) {
        struct counted counted = { 0, 0, refused };
        struct gix_glob_rule rule = GIX_GLOB_RULE_INIT;
        struct gix_glob_rules_options options = GIX_GLOB_RULES_OPTIONS_INIT;
        options.allocator.resize = counting;
        options.allocator.of = &counted;
        struct gix_glob_rules *rules = gix_glob_rules_new(&options);
        const char *const names[] = { below, "/", name, "no/such/rules" };
        for (size_t i = 0; rules && i < sizeof names / sizeof *names; i++)
            check(gix_glob_rules_read_file(rules, top, names[i]) || (counted.calls >= refused && gix_glob_rules_read_file(rules, top, names[i])),
                  "a file is read", i);
        check(!rules || (!gix_glob_rules_read_file(rules, top, too_long) && errno == ENAMETOOLONG), "a name is too long", refused);
        check(!rules || gix_glob_rules_decide(rules, gix_glob_string("a"), false, &rule) == GIX_GLOB_IGNORED, "the first line", refused);
        check(!rules || gix_glob_rules_decide(rules, gix_glob_string("x.o"), false, &rule) == GIX_GLOB_KEPT, "the third line", refused);
        check(!rules || (rule.file == 2 && rule.line == 3), "which line it is", refused);
        check(!rules || gix_glob_rules_decide(rules, gix_glob_string("b"), false, NULL) == GIX_GLOB_IGNORED, "the last line", refused);
        gix_glob_rules_free(rules);
        check(counted.bytes == 0, "all memory is given back", refused);
    }
    check(!unlink(name), "the file is removed", 0);
}

int main(void)
{
    for (size_t round = 0; round < ROUNDS; round++)
        answers_are_those_of_all_lists(round);
    refusals_change_nothing();
    refused_questions_are_told();
    files_are_read_by_their_names();
    names_of_files();
    steps();
    return failed > 0;
}
