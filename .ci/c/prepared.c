/* Prepared lists: how much room they take, what stays as it was, several paths at once, and memory that wasn't written for them. */
#include "checks.h"

enum { KEPT = 70, HEADS = 2048, ROW = 16, MOST = 40, WORDS = (HEADS + ROW * MOST) / 8 + 1 };

/* A block is asked for, and no byte behind it is written. */
static void blocks_are_as_large_as_the_library_says(void)
{
    const struct gix_glob_pattern drawn[] = {parsed("*.o"), parsed("a/"), parsed("B"), parsed("!e.o")};
    enum { COUNT = COUNT_OF(drawn) };
    check(gix_glob_prepared_size(0) == HEADS && gix_glob_prepared_size(COUNT) == HEADS + ROW * COUNT, "so many bytes", 0);
    check(gix_glob_prepared_size(UINT32_MAX) == HEADS + (size_t)ROW * UINT32_MAX, "so many bytes", 1);
    check(gix_glob_prepared_size((size_t)UINT32_MAX + 1) == GIX_GLOB_NONE && gix_glob_prepared_size(SIZE_MAX) == GIX_GLOB_NONE, "too many", 2);
    check(gix_glob_rows_at() % 8 == 0 && gix_glob_rows_at() <= gix_glob_prepared_size(0), "where the rows begin", 0);
    for (size_t less = 0; less <= 2; less++) {
        uint64_t block[WORDS];
        struct gix_glob_list list = gix_glob_list_of(drawn, COUNT, OF(""));
        const size_t size = gix_glob_prepared_size(COUNT);
        for (size_t i = 0; i < WORDS; i++)
            block[i] = KEPT;
        check(gix_glob_prepare_list(&list, block, size + 1 - less) == (less < 2), "so much room suffices", less);
        check((block[0] == KEPT && block[HEADS / 8] == KEPT) == (less == 2), "the block is written, or stays", less);
        check(block[size / 8] == KEPT, "what lies behind stays", less);
        check(list.head_count == (less < 2), "the list has it", less);
    }
    struct gix_glob_list list = gix_glob_list_of(drawn, COUNT, OF(""));
    check(!gix_glob_prepare_list(&list, NULL, SIZE_MAX), "no block", 0);
}

/* Rows past those of the patterns stay, and so does all where there are too few. */
static void rows_for_all_patterns_are_wanted(void)
{
    const struct gix_glob_pattern drawn[] = {parsed("*.o"), parsed("a/"), parsed("B"), parsed("!e.o")};
    enum { COUNT = COUNT_OF(drawn) };
    for (size_t room = 0; room <= COUNT + 1; room++) {
        uint64_t rows[2 * (COUNT + 2)], heads[HEADS / 8];
        const struct gix_glob_patterns patterns = {drawn, COUNT};
        const struct gix_glob_rows some = {rows, room};
        for (size_t i = 0; i < COUNT_OF(rows); i++)
            rows[i] = KEPT;
        heads[0] = KEPT;
        const bool is_prepared = gix_glob_prepare(patterns, some, heads);
        check(is_prepared == (room >= COUNT), "so many rows suffice", room);
        check((heads[0] == KEPT) == !is_prepared && (rows[0] == KEPT) == !is_prepared, "all is written, or stays", room);
        check(rows[2 * COUNT] == KEPT && rows[2 * COUNT + 1] == KEPT, "a row behind those of the patterns stays", room);
    }
}

static void rows_behind_the_count_are_not_asked(void)
{
    const struct gix_glob_pattern all[] = {
        parsed("*.o"), parsed("a/"), parsed("!b"), parsed("src/**/x"), parsed("*word*"), parsed("/c.o"),
        parsed("B"), parsed("[ab]c"), parsed("y/*"), parsed("k.o"), parsed("\\*d"), parsed("!e.o"),
    };
    enum { COUNT = COUNT_OF(all) };
    static uint64_t block[WORDS];
    struct gix_glob_list list = gix_glob_list_of(all, COUNT, OF(""));
    check(gix_glob_prepare_list(&list, block, sizeof block), "there is room", 0);
    static const struct {
        size_t count;
        struct gix_glob_text path;
        size_t last;
    } asked[] = {
        {COUNT, GIX_GLOB_TEXT("k.o"), 9},
        {3, GIX_GLOB_TEXT("k.o"), 0},
        {0, GIX_GLOB_TEXT("k.o"), GIX_GLOB_NONE},
        {COUNT, GIX_GLOB_TEXT("y//z"), GIX_GLOB_NONE},
        {COUNT, GIX_GLOB_TEXT("/c.o"), GIX_GLOB_NONE},
        {COUNT, GIX_GLOB_TEXT(""), GIX_GLOB_NONE},
    };
    for (size_t row = 0; row < COUNT_OF(asked); row++) {
        struct gix_glob_list some = list;
        some.count = asked[row].count;
        check(gix_glob_last_match(&some, asked[row].path, false, false) == asked[row].last, "the last of the list", row);
    }
}

/* Each path is told in its own place. */
static const struct {
    struct gix_glob_path path;
    size_t last, last_folded;
} PATHS[] = {
    {{GIX_GLOB_TEXT("x/c.o"), false}, 0, 0},
    {{GIX_GLOB_TEXT("a"), true}, 1, 1},
    {{GIX_GLOB_TEXT("a"), false}, GIX_GLOB_NONE, GIX_GLOB_NONE},
    {{GIX_GLOB_TEXT("B"), false}, 2, 2},
    {{GIX_GLOB_TEXT("b"), true}, GIX_GLOB_NONE, 2},
    {{GIX_GLOB_TEXT("c//d.o"), false}, GIX_GLOB_NONE, GIX_GLOB_NONE},
    {{GIX_GLOB_TEXT(""), false}, GIX_GLOB_NONE, GIX_GLOB_NONE},
};

enum { PATH_COUNT = COUNT_OF(PATHS) };

/* Asks about the first paths, with room for so many places. No place is written but those of the paths, and none where there is too
 * little room. */
static void ask_several(const struct gix_glob_list *list, size_t count, size_t room, bool fold)
{
    struct gix_glob_path paths[PATH_COUNT];
    size_t places[PATH_COUNT + 1];
    for (size_t row = 0; row < PATH_COUNT; row++)
        paths[row] = PATHS[row].path;
    for (size_t row = 0; row <= PATH_COUNT; row++)
        places[row] = KEPT;
    const bool are_told = gix_glob_last_matches(list, gix_glob_paths_of(paths, count), gix_glob_places_of(places, room), fold);
    check(are_told == (room >= count), "so many places suffice", room);
    for (size_t row = 0; row < PATH_COUNT; row++) {
        const size_t last = fold ? PATHS[row].last_folded : PATHS[row].last;
        check(places[row] == (are_told && row < count ? last : KEPT), fold ? "a path of several, folded" : "a path of several", row);
    }
    check(places[PATH_COUNT] == KEPT, "a place behind those of the paths stays", room);
}

static void several_paths_are_told(void)
{
    const struct gix_glob_pattern three[] = {parsed("*.o"), parsed("a/"), parsed("!B")};
    static uint64_t block[WORDS];
    struct gix_glob_list list = gix_glob_list_of(three, 3, OF(""));
    check(gix_glob_prepare_list(&list, block, sizeof block), "there is room", 0);
    for (size_t room = 0; room <= PATH_COUNT + 1; room++) {
        ask_several(&list, PATH_COUNT, room, false);
        ask_several(&list, PATH_COUNT, room, true);
        ask_several(&list, 2, room, false);
    }
    ask_several(&list, 0, 0, false);
}

/* Memory that was written for other patterns is safe, whatever is answered. */
static void memory_of_others_is_safe(void)
{
    const struct gix_glob_pattern drawn[] = {parsed("*.o"), parsed("a/"), parsed("B"), parsed("!e.o")};
    const struct gix_glob_pattern others[] = {parsed("q"), parsed("q"), parsed("q"), parsed("q")};
    enum { COUNT = COUNT_OF(drawn) };
    static uint64_t block[WORDS];
    for (size_t row = 0; row < (COUNT + 1) * (COUNT + 1); row++) {
        const size_t count = row / (COUNT + 1), room = row % (COUNT + 1);
        struct gix_glob_list list = gix_glob_list_of(others, count, OF(""));
        check(gix_glob_prepare_list(&list, block, sizeof block), "there is room", row);
        list.patterns = drawn;
        list.count = COUNT;
        list.row_count = room;
        const size_t last = gix_glob_last_match(&list, OF("e.o"), false, false);
        check(last == GIX_GLOB_NONE || last < COUNT, "a pattern of the list by the memory of others", row);
    }
}

/* So is memory that no call wrote: here each number of it is the same. */
static void made_up_memory_is_safe(void)
{
    static const uint32_t numbers[] = {0, 1, 2, MOST, MOST + 1, 255, UINT32_MAX};
    struct gix_glob_pattern same[MOST];
    for (size_t i = 0; i < MOST; i++)
        same[i] = parsed("*.o");
    for (size_t row = 0; row < COUNT_OF(numbers); row++) {
        static uint64_t block[WORDS];
        struct gix_glob_list list = gix_glob_list_of(same, MOST, OF(""));
        check(gix_glob_prepare_list(&list, block, sizeof block), "there is room", row);
        for (size_t i = 0; i < WORDS; i++)
            block[i] = numbers[row] * (((uint64_t)1 << 32) + 1);
        const size_t last = gix_glob_last_match(&list, OF("x/e.o"), false, false);
        check(last == GIX_GLOB_NONE || last < MOST, "a pattern of the list by made-up memory", row);
    }
}

void prepared(void)
{
    blocks_are_as_large_as_the_library_says();
    rows_for_all_patterns_are_wanted();
    rows_behind_the_count_are_not_asked();
    several_paths_are_told();
    memory_of_others_is_safe();
    made_up_memory_is_safe();
}
