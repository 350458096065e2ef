/* What the handle looks at, counted: each comparison of names, each list that is asked, and the memory. Folders that a file or a path doesn't
 * lie in cost nothing but the logarithm of a search, whatever their names are and in whichever order they come. */
#include "rules.h"
#include <string.h>

static size_t compared, asked;

static int counted_comparison(const void *left, const void *right, size_t len)
{
    compared++;
    return memcmp(left, right, len);
}

static bool counted_decision(struct gix_glob_lists lists, struct gix_glob_text path, bool is_dir, bool fold, struct gix_glob_decision *out)
{
    asked += lists.count;
    return gix_glob_decide_in_tree(lists, path, is_dir, fold, out);
}

#undef memcmp
#define memcmp counted_comparison
#define gix_glob_decide_in_tree counted_decision
#include <gix_glob_rules.h>

enum { FEW = 1000, MANY = 16000, NAMES = 12 };

/* The folder of a number, of which all names have the same length. */
struct way {
    const char *of;
    size_t (*name)(char *room, size_t number, size_t count);
};

static size_t upwards(char *room, size_t number, size_t count)
{
    (void)count;
    return (size_t)sprintf(room, "f%08zu", number);
}

static size_t downwards(char *room, size_t number, size_t count)
{
    return (size_t)sprintf(room, "f%08zu", count - number);
}

/* (an odd factor meets each number of 27 bits once) */
static size_t mixed(char *room, size_t number, size_t count)
{
    (void)count;
    return (size_t)sprintf(room, "f%09zu", number * 2654435761u % 134217728u);
}

static size_t of_two_names(char *room, size_t number, size_t count)
{
    (void)count;
    return (size_t)sprintf(room, "f%04zu/g%04zu", number / 128, number % 128);
}

static const struct way ways[] = {
    { "upwards", upwards },
    { "downwards", downwards },
    { "mixed", mixed },
    { "of two names", of_two_names },
};

/* The least number of halvings that leave nothing. */
static size_t halvings(size_t count)
{
    size_t all = 0;
    for (; count; count /= 2)
        all++;
    return all;
}

/* Adds a file to the top and to each of so many folders, and asks about a path in each. Answers the bytes that are kept. */
static size_t folders_cost_a_search(const struct way *way, size_t count)
{
    const struct gix_glob_text file = gix_glob_string("x\n");
    struct counted counted = { 0, 0, 0 };
    struct gix_glob_rules_options options = GIX_GLOB_RULES_OPTIONS_INIT;
    char path[64];
    size_t bytes;
    options.allocator.resize = counting;
    options.allocator.of = &counted;
    struct gix_glob_rules *rules = gix_glob_rules_new(&options);
    check(gix_glob_rules_add_file(rules, gix_glob_string(""), file), way->of, count);
    compared = 0;
    for (size_t i = 0; i < count; i++)
        check(gix_glob_rules_add_file(rules, gix_glob_text_of(path, way->name(path, i, count)), file), way->of, count);
    /* (a search and an insertion for each of two names) */
    check(compared <= count * 4 * 2 * halvings(count), "files are added by searches", count);
    compared = asked = 0;
    for (size_t i = 0; i < count; i++) {
        size_t len = way->name(path, i, count);
        path[len++] = '/';
        path[len++] = 'y';
        check(gix_glob_rules_decide(rules, gix_glob_text_of(path, len), false, NULL) == GIX_GLOB_UNDECIDED, way->of, count);
    }
    check(compared <= count * 2 * 2 * halvings(count), "folders are found by searches", count);
    check(asked == count * 2, "lists off the way aren't asked", count);
    bytes = counted.bytes;
    gix_glob_rules_free(rules);
    return bytes;
}

/* Files of the top that come after those of the folders, or before, touch no folder. */
static size_t files_of_the_top_cost_the_same(size_t count, bool is_before)
{
    const struct gix_glob_text top = gix_glob_string(""), file = gix_glob_string("x\n");
    struct counted counted = { 0, 0, 0 };
    struct gix_glob_rules_options options = GIX_GLOB_RULES_OPTIONS_INIT;
    char folder[64];
    size_t bytes;
    options.allocator.resize = counting;
    options.allocator.of = &counted;
    struct gix_glob_rules *rules = gix_glob_rules_new(&options);
    for (size_t i = 0; i < 2 * count; i++) {
        const bool is_top = is_before == (i < count);
        compared = 0;
        check(gix_glob_rules_add_file(rules, is_top ? top : gix_glob_text_of(folder, upwards(folder, i, count)), file), "a file is added", i);
        check(!is_top || !compared, "a file of the top compares no names", i);
    }
    bytes = counted.bytes;
    gix_glob_rules_free(rules);
    return bytes;
}

/* Folders in each other, from the deepest to the top. */
static void depth_costs_its_names(void)
{
    char folder[2 * NAMES];
    struct gix_glob_rules *rules = gix_glob_rules_new(NULL);
    memset(folder, '/', sizeof folder);
    for (size_t i = 0; i < sizeof folder; i += 2)
        folder[i] = 'd';
    for (size_t names = NAMES; names > 0; names--)
        check(gix_glob_rules_add_file(rules, gix_glob_text_of(folder, 2 * names), gix_glob_string("x\n")), "a file is added", names);
    asked = 0;
    check(gix_glob_rules_decide(rules, gix_glob_text_of(folder, sizeof folder), true, NULL) == GIX_GLOB_UNDECIDED, "none decides", 0);
    check(asked == NAMES - 1, "each folder above the path is asked", asked);
    gix_glob_rules_free(rules);
}

void steps(void)
{
    for (const struct way *way = ways; way < ways + sizeof ways / sizeof *ways; way++) {
        size_t before = 0;
        for (size_t count = FEW; count <= MANY; count *= 2) {
            const size_t bytes = folders_cost_a_search(way, count);
            check(!before || bytes <= before * 5 / 2, "twice the folders keep twice the memory", count);
            before = bytes;
        }
    }
    for (size_t is_before = 0; is_before < 2; is_before++)
        check(files_of_the_top_cost_the_same(2 * FEW, is_before) <= 5 * files_of_the_top_cost_the_same(FEW, is_before) / 2, "memory", is_before);
    depth_costs_its_names();
}
