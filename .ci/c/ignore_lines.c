/* The lines of an ignore file, taken off one after the other: what is left behind each, its number, and where the file ends. */
#include "checks.h"

static void lines_are_taken_one_by_one(void)
{
    static const uint8_t file[] = "\xEF\xBB\xBF*.o \r\n#x\n\n\xEF\xBB\xBFy\r\nbuild/\n!k\\  \r\n";
    /* (a line without a pattern leaves the one before) */
    static const struct {
        size_t left;
        enum gix_glob_line line;
        struct gix_glob_text text;
        uint32_t mode;
        size_t first_wildcard_pos;
    } rows[] = {
        {24, GIX_GLOB_LINE_PATTERN, GIX_GLOB_TEXT("*.o"), 3, 0},
        {21, GIX_GLOB_LINE_NOTHING, GIX_GLOB_TEXT("*.o"), 3, 0},
        {20, GIX_GLOB_LINE_NOTHING, GIX_GLOB_TEXT("*.o"), 3, 0},
        {14, GIX_GLOB_LINE_PATTERN, GIX_GLOB_TEXT("\xEF\xBB\xBFy"), 1, GIX_GLOB_NONE},
        {7, GIX_GLOB_LINE_PATTERN, GIX_GLOB_TEXT("build"), 5, GIX_GLOB_NONE},
        {0, GIX_GLOB_LINE_PATTERN, GIX_GLOB_TEXT("k\\ "), 9, 1},
    };
    enum { LEN = sizeof file - 1, COUNT = COUNT_OF(rows) };
    struct gix_glob_lines lines = gix_glob_lines_of(file, LEN);
    struct gix_glob_pattern pattern = GIX_GLOB_PATTERN_INIT;
    for (size_t row = 0; row < COUNT; row++) {
        check(gix_glob_parse_ignore_line(&lines, &pattern) == rows[row].line, "what the line gives", row);
        check(lines.rest.len == rows[row].left && lines.rest.bytes + lines.rest.len == file + LEN, "what is left", row);
        check(pattern.text.bytes > file && pattern.text.bytes + pattern.text.len <= lines.rest.bytes, "the text lies in the file", row);
        check(lines.number == row + 1, "the number", row);
        check(is_text(pattern.text, rows[row].text), "the text", row);
        check(pattern.mode.bits == rows[row].mode && pattern.first_wildcard_pos == rows[row].first_wildcard_pos, "mode and place", row);
    }
    check(gix_glob_parse_ignore_line(&lines, &pattern) == GIX_GLOB_LINE_END, "no line is left", COUNT);
    check(lines.rest.bytes == file + LEN && lines.rest.len == 0 && lines.number == COUNT, "the lines stay", COUNT);
    check(is_text(pattern.text, rows[COUNT - 1].text), "the pattern stays", COUNT);
}

static void files_end(void)
{
    /* the number of the line that was read last, before and after all lines were taken: no byte is left then */
    static const struct {
        struct gix_glob_text bytes;
        size_t number, last;
    } rows[] = {
        {GIX_GLOB_TEXT(), 0, 0},
        {GIX_GLOB_TEXT("\xEF\xBB\xBF"), 0, 0},
        {GIX_GLOB_TEXT("\xEF\xBB\xBF"), 1, 2},
        {GIX_GLOB_TEXT("\n"), 0, 1},
        {GIX_GLOB_TEXT("\n\n"), 0, 2},
        {GIX_GLOB_TEXT("a"), 0, 1},
        {GIX_GLOB_TEXT("a\r"), 0, 1},
        {GIX_GLOB_TEXT("\\"), SIZE_MAX, SIZE_MAX},
    };
    for (size_t row = 0; row < COUNT_OF(rows); row++) {
        struct gix_glob_lines lines = gix_glob_lines_of(rows[row].bytes.bytes, rows[row].bytes.len);
        struct gix_glob_pattern pattern = GIX_GLOB_PATTERN_INIT;
        size_t taken = 0;
        lines.number = rows[row].number;
        while (taken < 4 && gix_glob_parse_ignore_line(&lines, &pattern) != GIX_GLOB_LINE_END)
            taken++;
        check(taken < 4 && lines.number == rows[row].last, "the last line", row);
        check(lines.rest.len == 0, "what is left behind the last line", row);
    }
}

void ignore_lines(void)
{
    lines_are_taken_one_by_one();
    files_end();
}
