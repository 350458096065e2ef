/* Rows of attributes: what attribute files say, and which states attributes have for paths. */
#include "rows.h"

enum { MOST_LINES = 64, MOST_LISTS = 16, MOST_MACROS = 16, TOP = 2, STRONGEST = 9 };

/* Why lines of each kind say nothing. */
static const char *const SILENCES[] = {
    [GIX_GLOB_LINE_TOO_LONG] = "TooLong",          [GIX_GLOB_LINE_MACRO_BELOW_TOP] = "MacroBelowTop",
    [GIX_GLOB_LINE_MACRO_NAME] = "MacroName",      [GIX_GLOB_LINE_ATTRIBUTE_NAME] = "AttributeName",
    [GIX_GLOB_LINE_NEGATIVE] = "Negative",
};

/* The lines of an attribute file as they are read one after the other, and what the last one gave. */
struct reader {
    struct gix_glob_lines left;
    bool is_top;
    struct gix_glob_attribute_line line;
    struct gix_glob_macro macro;
    enum gix_glob_line kind;
};

static struct reader reader_of(const struct field *bytes, bool is_top)
{
    const struct reader reader = {
        gix_glob_lines_of(bytes->bytes, bytes->len), is_top, GIX_GLOB_ATTRIBUTE_LINE_INIT, GIX_GLOB_MACRO_INIT, GIX_GLOB_LINE_NOTHING,
    };
    return reader;
}

/* Reads a line. The heads that are quoted are kept as long as the row is asked. */
static bool read_line(struct reader *reader, struct gix_glob_memory *heads)
{
    reader->kind = (reads_as_git ? gix_glob_parse_attribute_line_as_git : gix_glob_parse_attribute_line)(
        &reader->left, heads, &reader->line, &reader->macro, reader->is_top);
    lacks_room |= reader->kind == GIX_GLOB_LINE_NO_MEMORY;
    return !lacks_room && reader->kind != GIX_GLOB_LINE_END && reader->kind != GIX_GLOB_LINE_FILE_TOO_LARGE;
}

/* Memory for the heads of files whose lines are asked about one after the other. */
static struct gix_glob_memory memory_for_heads(void)
{
    static uint8_t bytes[MOST_BYTES];
    return gix_glob_memory_of(bytes, sizeof bytes);
}

/* What files say, from the weakest to the strongest. */
struct sources {
    struct gix_glob_attribute_line lines[MOST_LINES];
    struct gix_glob_attribute_list lists[MOST_LISTS];
    struct gix_glob_macro macros[MOST_MACROS];
    size_t line_count, list_count, macro_count;
    uint8_t head_bytes[MOST_BYTES];
    struct gix_glob_memory heads;
};

static struct sources sources;

static void clear_sources(void)
{
    sources.line_count = sources.list_count = 0;
    sources.heads = gix_glob_memory_of(sources.head_bytes, sizeof sources.head_bytes);
    sources.macros[0] = (struct gix_glob_macro)GIX_GLOB_MACRO_BINARY;
    sources.macro_count = 1;
}

/* Adds a file that is stronger than those before it. */
static void add_file(const struct field *bytes, const uint8_t *base, size_t base_len)
{
    const size_t first = sources.line_count;
    struct reader reader = reader_of(bytes, base_len == 0);
    while (read_line(&reader, &sources.heads)) {
        lacks_room |= sources.line_count == MOST_LINES || sources.macro_count == MOST_MACROS || sources.list_count == MOST_LISTS;
        if (lacks_room)
            return;
        if (reader.kind == GIX_GLOB_LINE_PATTERN)
            sources.lines[sources.line_count++] = reader.line;
        if (reader.kind == GIX_GLOB_LINE_MACRO)
            sources.macros[sources.macro_count++] = reader.macro;
    }
    sources.lists[sources.list_count++] =
        gix_glob_attribute_list_of(&sources.lines[first], sources.line_count - first, gix_glob_text_of(base, base_len));
}

/* How strong a file is, by its name, and how many bytes its folder has. */
static size_t rank_of(const struct field *name, size_t *folder_len)
{
    size_t rank = TOP;
    *folder_len = 0;
    if (is(name, "system"))
        return 0;
    if (is(name, "user"))
        return 1;
    if (is(name, "info"))
        return STRONGEST;
    for (size_t i = 0; i < name->len; i++)
        if (name->bytes[i] == '/') {
            rank++;
            *folder_len = i + 1;
        }
    return rank;
}

/* Reads the files of a row, two fields for each, in the order of their strength. */
static void read_sources(const struct field *fields, size_t count)
{
    size_t folder_len;
    clear_sources();
    for (size_t rank = 0; rank <= STRONGEST; rank++)
        for (size_t i = 0; i + 1 < count; i += 2)
            if (rank_of(&fields[i], &folder_len) == rank)
                add_file(&fields[i + 1], fields[i].bytes, folder_len);
}

/* The state of an attribute for a path; false where the path is none. */
static bool ask_state(const struct gix_glob_path *path, bool fold, const struct field *name, struct gix_glob_state *state)
{
    const struct gix_glob_attributes all =
        gix_glob_attributes_of(sources.lists, sources.list_count, sources.macros, sources.macro_count);
    struct gix_glob_text texts[MOST_LINES + MOST_MACROS];
    bool marks[MOST_MACROS];
    return gix_glob_attribute_of(&all, path, text_of(name), gix_glob_texts_of(texts, MOST_LINES + MOST_MACROS),
                                 gix_glob_marks_of(marks, MOST_MACROS), fold, state);
}

/* Adds a space and a word that assigns the state. */
static void add_state(struct text *text, const struct field *name, const struct gix_glob_state *state)
{
    static const char *const signs[] = {" !", " ", " -", " "};
    add_word(text, signs[state->kind]);
    add(text, name->bytes, name->len);
    if (state->kind == GIX_GLOB_VALUE) {
        add_word(text, "=");
        add(text, state->value.bytes, state->value.len);
    }
}

/* Adds what each word of a line assigns: the state that its attribute has by a line of this word alone. */
static void add_words(struct text *text, struct gix_glob_text all)
{
    static const struct gix_glob_path path = {GIX_GLOB_TEXT("x"), false};
    const uint8_t *const words = all.bytes;
    const size_t len = all.len;
    for (size_t at = 0, end; at < len; at = end + 1) {
        for (end = at; end < len && !memchr(" \t\r", words[end], 3); end++)
            ;
        const size_t sign = end > at && memchr("-!", words[at], 2) ? 1 : 0;
        struct field rest = {words + at + sign, end - at - sign, false}, name;
        if (!take(&rest, '=', &name))
            continue;
        struct gix_glob_state state = GIX_GLOB_STATE_INIT;
        clear_sources();
        sources.lines[0] = (struct gix_glob_attribute_line)GIX_GLOB_ATTRIBUTE_LINE_INIT;
        sources.lines[0].words = gix_glob_text_of(words + at, end - at);
        sources.lists[0] = gix_glob_attribute_list_of(sources.lines, 1, gix_glob_string(""));
        sources.list_count = 1;
        if (!gix_glob_parse(path.text, &sources.lines[0].pattern) || !ask_state(&path, false, &name, &state))
            abort();
        add_state(text, &name, &state);
    }
}

/* Adds what a line gives: a pattern, or a macro's name between these signs, and what it assigns; or why it says nothing. */
static void add_line(struct text *text, const struct reader *reader, const char *before, const char *behind)
{
    if (reader->kind == GIX_GLOB_LINE_PATTERN) {
        add_pattern(text, &reader->line.pattern);
        add_words(text, reader->line.words);
    } else if (reader->kind == GIX_GLOB_LINE_MACRO) {
        add_word(text, before);
        add(text, reader->macro.name.bytes, reader->macro.name.len);
        add_word(text, behind);
        add_words(text, reader->macro.words);
    } else if (reader->kind != GIX_GLOB_LINE_NOTHING) {
        add_word(text, SILENCES[reader->kind]);
    }
}

/* What one line gives. A line of nothing stands before it, since a file's first line may have a byte order mark. */
static void one_line(const struct field *fields, struct text *text)
{
    static struct text file;
    struct gix_glob_memory heads = memory_for_heads();
    file.len = 0;
    add_word(&file, "\n");
    add(&file, fields[1].bytes, fields[1].len);
    struct reader reader = reader_of(&(struct field){file.bytes, file.len, false}, is(&fields[0], "top"));
    if (read_line(&reader, &heads) && read_line(&reader, &heads))
        add_line(text, &reader, "[", "]");
}

/* What the lines of a file give that are of one kind, or of all that say nothing where `kind` is GIX_GLOB_LINE_TOO_LONG. */
static void lines_of_kind(const struct field *bytes, bool is_top, enum gix_glob_line kind, struct text *text)
{
    struct gix_glob_memory heads = memory_for_heads();
    struct reader reader = reader_of(bytes, is_top);
    while (read_line(&reader, &heads)) {
        if (kind == GIX_GLOB_LINE_TOO_LONG ? reader.kind < kind : reader.kind != kind)
            continue;
        if (kind != GIX_GLOB_LINE_MACRO) {
            add_number(text, reader.left.number);
            add_word(text, ":");
        }
        add_line(text, &reader, "", "");
        add_word(text, "\n");
    }
}

/* What the lines that match a path assign. */
static void matched_lines(const struct field *fields, struct text *text)
{
    struct gix_glob_memory heads = memory_for_heads();
    struct reader reader = reader_of(&fields[0], true);
    const struct gix_glob_path path = path_of(&fields[1]);
    while (read_line(&reader, &heads))
        if (reader.kind == GIX_GLOB_LINE_PATTERN &&
            gix_glob_pattern_matches_path(&reader.line.pattern, path.text, path.is_dir, false))
            add_words(text, reader.line.words);
}

/* Whether a part of a path is `.` or `..`: a name for the library, while Git goes where it leads. */
static bool has_dots(const struct field *path)
{
    struct field rest = *path, part;
    while (take(&rest, '/', &part))
        if (is(&part, ".") || is(&part, ".."))
            return true;
    return false;
}

static void states(const struct field *fields, size_t count, struct text *text)
{
    const struct gix_glob_path path = path_of(&fields[1]);
    struct field names = fields[2], name;
    read_sources(fields + 3, count - 3);
    while (take(&names, ' ', &name)) {
        struct gix_glob_state state = GIX_GLOB_STATE_INIT;
        if (ask_state(&path, folds(&fields[0]), &name, &state))
            add_state(text, &name, &state);
        else
            add_word(text, " no state");
    }
}

/* Adds a path, a name and the word for a state, as check-attr -z writes them. */
static void add_answer(struct text *text, const struct field *path, const struct field *name, bool fold)
{
    static const char *const words[] = {"unspecified", "set", "unset"};
    struct gix_glob_state state = GIX_GLOB_STATE_INIT;
    const struct gix_glob_path asked = path_of(path);
    if (!ask_state(&asked, fold, name, &state))
        state.kind = GIX_GLOB_UNSPECIFIED;
    add(text, path->bytes, path->len);
    add(text, "", 1);
    add(text, name->bytes, name->len);
    add(text, "", 1);
    if (state.kind == GIX_GLOB_VALUE)
        add(text, state.value.bytes, state.value.len);
    else
        add_word(text, words[state.kind]);
    add(text, "", 1);
}

static void streams(const struct field *fields, size_t count, struct text *text)
{
    struct field paths = fields[2], path;
    read_sources(fields + 3, count - 3);
    while (take(&paths, 0, &path)) {
        struct field names = fields[1], name;
        bool is_last = names.is_none;
        while (!is_last) {
            /* (behind a byte 0 there is a name, also an empty one) */
            is_last = !memchr(names.bytes, 0, names.len);
            take(&names, 0, &name);
            add_answer(text, &path, &name, folds(&fields[0]));
        }
    }
}

bool answer_attributes(const char *subject, const struct field *fields, size_t count, struct answer *answer)
{
    static struct text text;
    text.len = 0;
    if (reads_as_git && has_dots(&fields[1]))
        return false;
    if (strcmp(subject, "attribute_lines") == 0)
        one_line(fields, &text);
    else if (strcmp(subject, "attribute_files") == 0)
        lines_of_kind(&fields[0], true, GIX_GLOB_LINE_PATTERN, &text);
    else if (strcmp(subject, "attribute_macros") == 0)
        lines_of_kind(&fields[0], true, GIX_GLOB_LINE_MACRO, &text);
    else if (strcmp(subject, "silent_lines") == 0)
        lines_of_kind(&fields[1], is(&fields[0], "top"), GIX_GLOB_LINE_TOO_LONG, &text);
    else if (strcmp(subject, "attribute_matches") == 0)
        matched_lines(fields, &text);
    else if (strcmp(subject, "attribute_states") == 0)
        states(fields, count, &text);
    else if (strcmp(subject, "attribute_streams") == 0)
        streams(fields, count, &text);
    else
        return false;
    push_text(answer, &text);
    return true;
}
