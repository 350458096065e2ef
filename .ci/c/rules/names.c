/* How folders and paths are named: what is passed over, what is refused, and what options of zeros mean. */
#include "rules.h"
#include <gix_glob_rules.h>

/* A file whose line matches every `x`, in a folder below a root, and a path that it decides about. */
static const struct row {
    const char *root, *folder, *path;
} same[] = {
    { "", "", "x" },
    { "", ".", "x" },
    { "", "./", "a/x" },
    { "", ".//./", "./x" },
    { "", "./src", "src/x" },
    { "", "src//", "./src/x" },
    { "", ".src", ".src/..x/x" },
    { ".", ".", "./x" },
    { "./", "./src", "src/x" },
    { "../t", "../t/src", "../t/src/x" },
    { "./r//", "r/a", "./r/a/x" },
    { "/", "/", "/x" },
    { "/", "/src", "/src/a/x" },
    { "/", "//src/", "///src/x" },
    { "/abs", "/abs", "/abs/x" },
    { "/abs/", "/abs//src", "/abs/./src/x" },
};

/* What names nothing below a root. */
static const struct row none[] = {
    { "", "/", "/x" },
    { "", "/abs/src", "/abs/x" },
    { "", "src//sub", "src//x" },
    { "", "a/../b", "a/../x" },
    { "", "..", "../x" },
    { "", "./..", "./../x" },
    { "", "a/./b", "a/./x" },
    { "", "a/.", "x/." },
    { "", "a/..", "x/.." },
    { "/", "", "" },
    { "/", "src", "x" },
    { "/", "/..", "/../x" },
    { "/abs", "/absolute", "/absx" },
    { "/abs", "/", "/x" },
    { "/abs", "/ab", "/ab" },
    { "/abs", "abs", "abs/x" },
    { "r", "", "x" },
    { "r", ".", "./x" },
    { "r", "r/../r", "r/../r/x" },
};

static struct gix_glob_rules *rules_below(const char *root)
{
    struct gix_glob_rules_options options = GIX_GLOB_RULES_OPTIONS_INIT;
    options.root = gix_glob_string(root);
    return gix_glob_rules_new(&options);
}

static void folders_are_cleaned_or_refused(void)
{
    const struct gix_glob_text line = gix_glob_string("x\n");
    for (size_t row = 0; row < sizeof same / sizeof *same; row++) {
        struct gix_glob_rules *rules = rules_below(same[row].root);
        check(gix_glob_rules_add_file(rules, gix_glob_string(same[row].folder), line), "the folder is taken", row);
        check(gix_glob_rules_decide(rules, gix_glob_string(same[row].path), false, NULL) == GIX_GLOB_IGNORED, "the path lies in it", row);
        gix_glob_rules_free(rules);
    }
    for (size_t row = 0; row < sizeof none / sizeof *none; row++) {
        struct gix_glob_rules *rules = rules_below(none[row].root);
        const char *const top = *none[row].root ? none[row].root : ".";
        errno = 0;
        check(!gix_glob_rules_add_file(rules, gix_glob_string(none[row].folder), line) && errno == EINVAL, "the folder is refused", row);
        errno = 0;
        check(!gix_glob_rules_read_file(rules, gix_glob_string(none[row].folder), "no/such/rules") && errno == EINVAL, "so is a file's", row);
        check(gix_glob_rules_add_file(rules, gix_glob_string(top), gix_glob_string("*\n")), "the top is taken", row);
        check(gix_glob_rules_decide(rules, gix_glob_string(none[row].path), false, NULL) == GIX_GLOB_UNDECIDED, "the path isn't decided", row);
        gix_glob_rules_free(rules);
    }
}

static void a_slash_at_the_end_is_a_folders(void)
{
    const struct gix_glob_text file = gix_glob_string("d/\n");
    check(gix_glob_is_ignored(file, gix_glob_string("d"), false) == GIX_GLOB_UNDECIDED, "a file of that name", 0);
    check(gix_glob_is_ignored(file, gix_glob_string("d"), true) == GIX_GLOB_IGNORED, "a folder", 0);
    check(gix_glob_is_ignored(file, gix_glob_string("d/"), false) == GIX_GLOB_IGNORED, "a folder by its slash", 0);
    check(gix_glob_is_ignored(file, gix_glob_string("e/d//"), false) == GIX_GLOB_IGNORED, "by two", 0);
    check(gix_glob_is_ignored(file, gix_glob_string("/"), true) == GIX_GLOB_UNDECIDED, "slashes alone", 0);
}

/* (`git check-ignore` ignores ax/y/b by this line; the crate's reading doesn't match it) */
static void zeros_mean_gits_reading(void)
{
    const struct gix_glob_text line = gix_glob_string("a**/b\n"), path = gix_glob_string("ax/y/b");
    struct gix_glob_text nothing;
    struct gix_glob_rules_options options;
    memset(&options, 0, sizeof options);
    memset(&nothing, 0, sizeof nothing);
    for (size_t as_crate = 0; as_crate < 2; as_crate++) {
        options.as_crate = as_crate;
        struct gix_glob_rules *rules = gix_glob_rules_new(&options);
        check(gix_glob_rules_add_file(rules, nothing, nothing), "a text of zeros has no bytes", as_crate);
        check(gix_glob_rules_add_file(rules, nothing, line), "a folder of zeros is the top", as_crate);
        check(gix_glob_rules_decide(rules, path, false, NULL) == (as_crate ? GIX_GLOB_UNDECIDED : GIX_GLOB_IGNORED), "whose reading it is", as_crate);
        check(gix_glob_rules_decide(rules, nothing, true, NULL) == GIX_GLOB_UNDECIDED, "a path of zeros", as_crate);
        gix_glob_rules_free(rules);
    }
}

void names_of_files(void)
{
    folders_are_cleaned_or_refused();
    a_slash_at_the_end_is_a_folders();
    zeros_mean_gits_reading();
}
