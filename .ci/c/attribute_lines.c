/* The lines of an attribute file, taken off one after the other: what each argument receives, and memory for heads that are quoted. */
#include "checks.h"

/* What a call receives: before one, what stands for none. */
struct received {
    struct gix_glob_attribute_line line;
    struct gix_glob_macro macro;
    enum gix_glob_line kind;
};

#define NO_LINE GIX_GLOB_TEXT("none"), 0, 7, GIX_GLOB_TEXT("none")
#define NO_MACRO GIX_GLOB_TEXT("none"), GIX_GLOB_TEXT("none")
static const struct received NOTHING = {
    {{GIX_GLOB_TEXT("none"), 7, {0}, GIX_GLOB_AS_CRATE}, GIX_GLOB_TEXT("none")},
    {GIX_GLOB_TEXT("none"), GIX_GLOB_TEXT("none")},
    GIX_GLOB_LINE_END,
};

static bool take(struct gix_glob_lines *lines, bool is_top, struct gix_glob_memory *memory, struct received *into)
{
    into->kind = gix_glob_parse_attribute_line(lines, memory, &into->line, &into->macro, is_top);
    return into->kind >= GIX_GLOB_LINE_NOTHING && into->kind <= GIX_GLOB_LINE_NEGATIVE;
}

static void each_argument_receives_its_own(void)
{
    /* bytes behind a line of this number, the kind of the line, what is left behind it, and what it gives */
    static const struct {
        struct gix_glob_text bytes;
        size_t number;
        bool is_top;
        enum gix_glob_line kind;
        size_t left;
        struct gix_glob_text text;
        uint32_t mode;
        size_t first_wildcard_pos;
        struct gix_glob_text words, name, macro_words;
    } rows[] = {
        {GIX_GLOB_TEXT("\xEF\xBB\xBF*.c text -diff\r\nx"), 0, false, GIX_GLOB_LINE_PATTERN, 1,
         GIX_GLOB_TEXT("*.c"), 3, 0, GIX_GLOB_TEXT(" text -diff"), NO_MACRO},
        {GIX_GLOB_TEXT("\xEF\xBB\xBFx a"), 1, false, GIX_GLOB_LINE_PATTERN, 0,
         GIX_GLOB_TEXT("\xEF\xBB\xBFx"), 1, GIX_GLOB_NONE, GIX_GLOB_TEXT(" a"), NO_MACRO},
        {GIX_GLOB_TEXT("\"/d/\\\\*\\t\" a=\"v\n\n"), 0, false, GIX_GLOB_LINE_PATTERN, 1,
         GIX_GLOB_TEXT("d/\\*\t"), 16, 2, GIX_GLOB_TEXT(" a=\"v"), NO_MACRO},
        {GIX_GLOB_TEXT(" #x a\nx a"), 4, true, GIX_GLOB_LINE_NOTHING, 3, NO_LINE, NO_MACRO},
        {GIX_GLOB_TEXT("[attr]m a -b"), 0, true, GIX_GLOB_LINE_MACRO, 0, NO_LINE, GIX_GLOB_TEXT("m"), GIX_GLOB_TEXT(" a -b")},
        {GIX_GLOB_TEXT("[attr]m a -b"), 0, false, GIX_GLOB_LINE_MACRO_BELOW_TOP, 0, NO_LINE, NO_MACRO},
        {GIX_GLOB_TEXT("[attr]m=v a"), 0, true, GIX_GLOB_LINE_MACRO_NAME, 0, NO_LINE, NO_MACRO},
        {GIX_GLOB_TEXT("x a #"), 0, true, GIX_GLOB_LINE_ATTRIBUTE_NAME, 0, NO_LINE, NO_MACRO},
        {GIX_GLOB_TEXT("\"!y\"a"), 0, false, GIX_GLOB_LINE_NEGATIVE, 0, NO_LINE, NO_MACRO},
    };
    for (size_t row = 0; row < COUNT_OF(rows); row++) {
        struct gix_glob_lines lines = gix_glob_lines_of(rows[row].bytes.bytes, rows[row].bytes.len);
        struct received into = NOTHING;
        uint8_t bytes[24];
        struct gix_glob_memory memory = gix_glob_memory_of(bytes, sizeof bytes);
        lines.number = rows[row].number;
        check(take(&lines, rows[row].is_top, &memory, &into), "a line is taken off", row);
        check(into.kind == rows[row].kind, "the kind", row);
        check(lines.number == rows[row].number + 1 && lines.rest.len == rows[row].left, "what follows", row);
        check(is_text(into.line.pattern.text, rows[row].text), "the text", row);
        check(into.line.pattern.mode.bits == rows[row].mode, "the mode", row);
        check(into.line.pattern.first_wildcard_pos == rows[row].first_wildcard_pos, "the place", row);
        check(is_text(into.line.words, rows[row].words), "the words", row);
        check(is_text(into.macro.name, rows[row].name), "the macro's name", row);
        check(is_text(into.macro.words, rows[row].macro_words), "the macro's words", row);
    }
}

/* So much memory, what is told, and how many bytes are left then. No byte of memory behind the size is written, and what no line gives
 * stays as it was. */
static void files_end_and_memory_may_be_short(void)
{
    static const struct {
        struct gix_glob_text bytes;
        size_t number, size;
        enum gix_glob_line kind;
        size_t left;
    } rows[] = {
        {GIX_GLOB_TEXT(), 0, 8, GIX_GLOB_LINE_END, 0},
        {GIX_GLOB_TEXT("\xEF\xBB\xBF"), 0, 8, GIX_GLOB_LINE_END, 0},
        {GIX_GLOB_TEXT("\xEF\xBB\xBF"), 1, 8, GIX_GLOB_LINE_PATTERN, 0},
        {GIX_GLOB_TEXT("\n"), 0, 0, GIX_GLOB_LINE_NOTHING, 0},
        {GIX_GLOB_TEXT("x a"), 0, 0, GIX_GLOB_LINE_PATTERN, 0},
        {GIX_GLOB_TEXT("\"xy\" a"), 0, 2, GIX_GLOB_LINE_PATTERN, 0},
        {GIX_GLOB_TEXT("\"xy\" a"), 0, 1, GIX_GLOB_LINE_NO_MEMORY, 6},
        {GIX_GLOB_TEXT("\"xy\" a"), 0, 0, GIX_GLOB_LINE_NO_MEMORY, 6},
        {GIX_GLOB_TEXT("\"\\t\" a"), 0, 1, GIX_GLOB_LINE_PATTERN, 0},
        {GIX_GLOB_TEXT("x a"), SIZE_MAX, 0, GIX_GLOB_LINE_PATTERN, 0},
    };
    for (size_t row = 0; row < COUNT_OF(rows); row++) {
        const uint8_t *end = rows[row].bytes.bytes + rows[row].bytes.len;
        struct gix_glob_lines lines = {rows[row].bytes, rows[row].number};
        struct received into = NOTHING;
        uint8_t bytes[9] = {0};
        struct gix_glob_memory memory = gix_glob_memory_of(bytes, rows[row].size);
        const bool is_taken = take(&lines, true, &memory, &into);
        check(into.kind == rows[row].kind, "what is told", row);
        check(lines.rest.len == rows[row].left && lines.rest.bytes + lines.rest.len == end, "what is left", row);
        check(lines.number == rows[row].number + (is_taken && rows[row].number < SIZE_MAX), "the number", row);
        check(is_taken || (into.line.pattern.text.bytes == NOTHING.line.pattern.text.bytes && into.macro.name.bytes == NOTHING.macro.name.bytes),
              "all stays", row);
        check(is_taken || (memory.bytes == bytes && memory.len == rows[row].size && bytes[0] == 0), "the memory stays", row);
        check(bytes[rows[row].size] == 0, "the byte behind the memory", row);
    }
}

/* A head that is quoted, as many bytes as it spells, is taken off the front of the memory, also where its line says nothing. What is
 * behind it isn't written, and neither is memory for any other line. */
static void heads_are_taken_off(void)
{
    static const struct {
        struct gix_glob_text bytes;
        bool is_top;
        enum gix_glob_line kind;
        struct gix_glob_text head;
    } rows[] = {
        {GIX_GLOB_TEXT("\"\\t\\t\" a"), true, GIX_GLOB_LINE_PATTERN, GIX_GLOB_TEXT("\t\t")},
        {GIX_GLOB_TEXT("\"\" a"), true, GIX_GLOB_LINE_PATTERN, GIX_GLOB_TEXT()},
        {GIX_GLOB_TEXT("\"[attr]m\" a"), true, GIX_GLOB_LINE_MACRO, GIX_GLOB_TEXT("[attr]m")},
        {GIX_GLOB_TEXT("\"[attr]m\" a"), false, GIX_GLOB_LINE_MACRO_BELOW_TOP, GIX_GLOB_TEXT("[attr]m")},
        {GIX_GLOB_TEXT("\"x\\101\" =\n"), true, GIX_GLOB_LINE_ATTRIBUTE_NAME, GIX_GLOB_TEXT("xA")},
        {GIX_GLOB_TEXT("\"!x\" a"), true, GIX_GLOB_LINE_NEGATIVE, GIX_GLOB_TEXT("!x")},
        {GIX_GLOB_TEXT("\"abc\\q\" a"), true, GIX_GLOB_LINE_PATTERN, GIX_GLOB_TEXT()},
        {GIX_GLOB_TEXT("\"abcdefg"), true, GIX_GLOB_LINE_PATTERN, GIX_GLOB_TEXT()},
        {GIX_GLOB_TEXT("x a"), true, GIX_GLOB_LINE_PATTERN, GIX_GLOB_TEXT()},
        {GIX_GLOB_TEXT("x \"a\""), true, GIX_GLOB_LINE_ATTRIBUTE_NAME, GIX_GLOB_TEXT()},
        {GIX_GLOB_TEXT("[attr]m a"), true, GIX_GLOB_LINE_MACRO, GIX_GLOB_TEXT()},
        {GIX_GLOB_TEXT("#\"x\" a\n"), true, GIX_GLOB_LINE_NOTHING, GIX_GLOB_TEXT()},
        {GIX_GLOB_TEXT("\n"), true, GIX_GLOB_LINE_NOTHING, GIX_GLOB_TEXT()},
    };
    for (size_t row = 0; row < COUNT_OF(rows); row++) {
        struct gix_glob_lines lines = gix_glob_lines_of(rows[row].bytes.bytes, rows[row].bytes.len);
        const size_t len = rows[row].head.len;
        struct received into = NOTHING;
        uint8_t bytes[32] = {0};
        struct gix_glob_memory memory = gix_glob_memory_of(bytes, sizeof bytes);
        check(take(&lines, rows[row].is_top, &memory, &into) && into.kind == rows[row].kind, "a line is taken off", row);
        check(memory.bytes == bytes + len && memory.len == sizeof bytes - len, "what is left", row);
        check(is_text(gix_glob_text_of(bytes, len), rows[row].head), "the head", row);
        for (size_t i = len; i < sizeof bytes; i++)
            check(bytes[i] == 0, "a byte behind the head", row);
    }
}

static bool lies_in(struct gix_glob_text text, const uint8_t *bytes, size_t len)
{
    return text.bytes >= bytes && text.bytes + text.len <= bytes + len;
}

/* A quoted head's text lies where the memory began, any other in the file, as the words do, also where they are no bytes. */
static void texts_lie_where_they_are_told(void)
{
    static const struct {
        struct gix_glob_text bytes;
        bool is_quoted;
    } rows[] = {
        {GIX_GLOB_TEXT("\xEF\xBB\xBF\"/x/\" a"), true}, {GIX_GLOB_TEXT("\"x\""), true},   {GIX_GLOB_TEXT("\"\\#\" a"), false},
        {GIX_GLOB_TEXT("\"\\\\#\" a"), true},           {GIX_GLOB_TEXT("\"\" a"), true},  {GIX_GLOB_TEXT("\"x\\000y\""), true},
        {GIX_GLOB_TEXT("\xEF\xBB\xBF /x/ a\r\n"), false},  {GIX_GLOB_TEXT("x"), false},       {GIX_GLOB_TEXT("x\0y a"), false},
        {GIX_GLOB_TEXT("\\#x/ a"), false},                  {GIX_GLOB_TEXT("\"x a"), false},
    };
    for (size_t row = 0; row < COUNT_OF(rows); row++) {
        struct gix_glob_lines lines = gix_glob_lines_of(rows[row].bytes.bytes, rows[row].bytes.len);
        struct received into = NOTHING;
        uint8_t bytes[16];
        struct gix_glob_memory memory = gix_glob_memory_of(bytes, sizeof bytes);
        check(take(&lines, true, &memory, &into) && into.kind == GIX_GLOB_LINE_PATTERN, "a pattern", row);
        if (rows[row].is_quoted)
            check(lies_in(into.line.pattern.text, bytes, (size_t)(memory.bytes - bytes)), "the text lies in the memory", row);
        else
            check(lies_in(into.line.pattern.text, rows[row].bytes.bytes, rows[row].bytes.len), "the text lies in the file", row);
        check(lies_in(into.line.words, rows[row].bytes.bytes, rows[row].bytes.len), "the words lie in the file", row);
    }
}

/* The same of a macro's name. */
static void names_lie_where_they_are_told(void)
{
    static const char *const files[] = {"[attr]m a", "\"[attr]m\" a", "\"[attr] m x\"", "[attr]m"};
    for (size_t row = 0; row < COUNT_OF(files); row++) {
        const struct gix_glob_text file = gix_glob_string(files[row]);
        struct gix_glob_lines lines = {file, 0};
        struct received into = NOTHING;
        uint8_t bytes[16];
        struct gix_glob_memory memory = gix_glob_memory_of(bytes, sizeof bytes);
        check(take(&lines, true, &memory, &into) && into.kind == GIX_GLOB_LINE_MACRO, "a macro", row);
        check(is_text(into.macro.name, OF("m")), "its name", row);
        if (files[row][0] == '"')
            check(lies_in(into.macro.name, bytes, (size_t)(memory.bytes - bytes)), "the name lies in the memory", row);
        else
            check(lies_in(into.macro.name, file.bytes, file.len), "the name lies in the file", row);
        check(lies_in(into.macro.words, file.bytes, file.len), "the words lie in the file", row);
    }
}

/* A file of 100 MiB says so, and its lines are at an end. */
static void files_may_be_too_large(void)
{
    static uint8_t file[100 << 20];
    for (size_t more = 0; more < 2; more++) {
        struct gix_glob_lines lines = gix_glob_lines_of(file + more, sizeof file - more);
        struct received into = NOTHING;
        struct gix_glob_memory memory = gix_glob_memory_of(NULL, 0);
        const bool is_taken = take(&lines, true, &memory, &into);
        check(into.kind == (more ? GIX_GLOB_LINE_NOTHING : GIX_GLOB_LINE_FILE_TOO_LARGE) && is_taken == !!more, "100 MiB", more);
        check(lines.rest.len == 0 && lines.rest.bytes == file + sizeof file, "the end", more);
    }
}

/* Memory as long as the file serves all of its lines: what a line was given stays, and as many bytes are left as of the file. */
static void memory_as_long_as_the_file_suffices(void)
{
    static const uint8_t file[] = "\"x\\040y\"a=2\n[attr]m b\n#\n!z a\n\"\\167\" c";
    static const enum gix_glob_line kinds[] = {
        GIX_GLOB_LINE_PATTERN, GIX_GLOB_LINE_MACRO, GIX_GLOB_LINE_NOTHING, GIX_GLOB_LINE_NEGATIVE, GIX_GLOB_LINE_PATTERN,
    };
    enum { LEN = sizeof file - 1, COUNT = COUNT_OF(kinds) };
    uint8_t bytes[LEN];
    struct gix_glob_lines left = gix_glob_lines_of(file, LEN);
    struct gix_glob_memory heads = gix_glob_memory_of(bytes, LEN);
    struct received into = NOTHING;
    for (size_t row = 0; row < COUNT; row++) {
        check(take(&left, true, &heads, &into), "a line is taken off", row);
        check(into.kind == kinds[row] && left.number == row + 1, "the kind and the number", row);
        check(left.rest.bytes + left.rest.len == file + LEN && heads.bytes + heads.len == bytes + LEN, "the ends", row);
        check(left.rest.len <= heads.len, "enough is left", row);
        check(is_text(gix_glob_text_of(bytes, 3), OF("x y")), "the first head", row);
    }
    check(into.line.pattern.text.bytes == bytes + 3 && is_text(into.line.pattern.text, OF("w")), "the last head", COUNT);
    check(!take(&left, true, &heads, &into) && left.number == COUNT, "no line is left", COUNT);
    check(heads.bytes == bytes + 4 && into.line.pattern.text.len == 1 && into.macro.name.len == 1, "what was read stays", COUNT);
}

void attribute_lines(void)
{
    each_argument_receives_its_own();
    files_end_and_memory_may_be_short();
    heads_are_taken_off();
    texts_lie_where_they_are_told();
    names_lie_where_they_are_told();
    files_may_be_too_large();
    memory_as_long_as_the_file_suffices();
}
