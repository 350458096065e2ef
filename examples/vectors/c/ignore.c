/* Rows of ignore files and of paths: which line decides. */
#include "rows.h"

enum { MOST_RULES = 256, MOST_FILES = 16 };

/* The patterns of an ignore file with the numbers of their lines, what is prepared of them, and the folder of the file. */
struct file {
    struct gix_glob_pattern patterns[MOST_RULES];
    uint64_t block[(1 << 10) + 2 * MOST_RULES];
    struct gix_glob_list list;
    size_t numbers[MOST_RULES], count;
    const struct field *base;
};

static struct file files[MOST_FILES];

/* Prepares the patterns of a file, as a list of the top. */
static void prepare(struct file *file)
{
    file->list = gix_glob_list_of(file->patterns, file->count, gix_glob_string(""));
    if (!gix_glob_prepare_list(&file->list, file->block, sizeof file->block))
        abort();
}

/* A file of one pattern. */
static const struct file *file_of(const struct gix_glob_pattern *pattern)
{
    files[0].patterns[0] = *pattern;
    files[0].count = 1;
    prepare(&files[0]);
    return &files[0];
}

/* Reads an ignore file, and prepares its patterns. */
static void read_file(const struct field *base, const struct field *bytes, bool as_git, struct file *file)
{
    enum gix_glob_line (*const take_line)(struct gix_glob_lines *, struct gix_glob_pattern *) =
        as_git ? gix_glob_parse_ignore_line_as_git : gix_glob_parse_ignore_line;
    struct gix_glob_lines lines = gix_glob_lines_of(bytes->bytes, bytes->len);
    struct gix_glob_pattern pattern = GIX_GLOB_PATTERN_INIT;
    enum gix_glob_line line;
    file->base = base;
    for (file->count = 0; (line = take_line(&lines, &pattern)) != GIX_GLOB_LINE_END;)
        if (line == GIX_GLOB_LINE_PATTERN) {
            if (file->count == MOST_RULES) {
                lacks_room = true;
                break;
            }
            file->numbers[file->count] = lines.number;
            file->patterns[file->count++] = pattern;
        }
    prepare(file);
}

/* Reads the files of a row, two fields for each. */
static size_t read_files(const struct field *fields, size_t count)
{
    for (size_t i = 0; i + 1 < count; i += 2)
        read_file(&fields[i], &fields[i + 1], reads_as_git, &files[i / 2]);
    return count / 2;
}

/* The last pattern of a file that matches a path, by each call that tells it. */
static size_t last_match(const struct file *file, const struct gix_glob_path *path, bool fold, struct answer *answer)
{
    const struct gix_glob_list in_turn = gix_glob_list_of(file->patterns, file->count, gix_glob_string(""));
    const size_t found = gix_glob_last_match(&in_turn, path->text, path->is_dir, fold);
    size_t place = 0, at = file->count;
    agree(answer, "gix_glob_last_match of a prepared list", gix_glob_last_match(&file->list, path->text, path->is_dir, fold) == found);
    agree(answer, "gix_glob_last_matches",
          gix_glob_last_matches(&file->list, gix_glob_paths_of(path, 1), gix_glob_places_of(&place, 1), fold) && place == found);
    while (at > 0 && !gix_glob_pattern_matches_path(&file->patterns[at - 1], path->text, path->is_dir, fold))
        at--;
    agree(answer, "gix_glob_pattern_matches_path", (at ? at - 1 : GIX_GLOB_NONE) == found);
    return found;
}

/* Whether a path is one below the top, without empty parts. */
static bool is_plain(const struct gix_glob_path *path)
{
    const struct gix_glob_text text = path->text;
    for (size_t i = 0; i < text.len; i++)
        if (text.bytes[i] == '/' && (i == 0 || i + 1 == text.len || text.bytes[i + 1] == '/'))
            return false;
    return text.len > 0;
}

/* Whether the last part of a path begins where a row tells it, if it has slashes. */
static bool begins_at(const struct field *path, const struct field *place)
{
    return place->is_none == !memchr(path->bytes, '/', path->len);
}

static bool repository_paths(const struct field *fields, struct answer *answer)
{
    const struct field *line = &fields[2], *path = &fields[3], *place = &fields[4];
    const bool fold = folds(&fields[0]) || is(&fields[1], "path+fold"), is_dir = is(&fields[5], "folder");
    const struct gix_glob_path asked = {text_of(path), is_dir};
    /* (the library always matches as `path` does, knows the kind, finds the last part itself, and is asked about paths alone) */
    if (!(mode_of(&fields[1]).bits & GIX_GLOB_NO_MATCH_SLASH_LITERAL) || is(&fields[5], "unknown") || !begins_at(path, place) ||
        !is_plain(&asked))
        return false;
    const bool matches = gix_glob_matches_path(text_of(line), asked.text, is_dir, fold);
    struct gix_glob_pattern pattern = GIX_GLOB_PATTERN_INIT;
    const bool has_pattern = gix_glob_parse(text_of(line), &pattern);
    agree(answer, "gix_glob_last_match", (has_pattern && last_match(file_of(&pattern), &asked, fold, answer) == 0) == matches);
    push_bool(answer, matches);
    return true;
}

static bool git_paths(const struct field *fields, struct answer *answer)
{
    const struct field *path = &fields[2], *place = &fields[3];
    const struct gix_glob_path asked = {text_of(path), is(&fields[4], "folder")};
    const struct gix_glob_pattern pattern = parsed_as_git(&fields[1]);
    if (is(&fields[4], "unknown") || !begins_at(path, place) || !is_plain(&asked))
        return false;
    push_bool(answer, last_match(file_of(&pattern), &asked, folds(&fields[0]), answer) == 0);
    return true;
}

/* The patterns of an ignore file, each behind the number of its line. */
static bool ignore_files(const struct field *fields, bool as_git, struct answer *answer)
{
    struct text text = {.len = 0};
    read_file(NULL, &fields[0], as_git, &files[0]);
    for (size_t i = 0; i < files[0].count; i++) {
        add_number(&text, files[0].numbers[i]);
        add_word(&text, ":");
        add_pattern(&text, &files[0].patterns[i]);
        add_word(&text, "\n");
    }
    push_text(answer, &text);
    return true;
}

/* Takes the base of a file off a path, where the path lies below it. */
static bool strip(const struct field *base, bool fold, struct gix_glob_path *path)
{
    const size_t len = base->is_none ? 0 : base->len;
    if (len >= path->text.len)
        return false;
    for (size_t i = 0; i < len; i++) {
        const uint8_t one = base->bytes[i], other = path->text.bytes[i];
        const bool is_letter = (one | 32) >= 'a' && (one | 32) <= 'z';
        if (one != other && !(fold && is_letter && (one ^ other) == 32))
            return false;
    }
    path->text = gix_glob_text_of(path->text.bytes + len, path->text.len - len);
    return true;
}

/* Adds what decides about a path by itself: the last match of the last file that has one. */
static void add_decision(struct text *text, size_t count, const struct gix_glob_path *path, bool fold, struct answer *answer)
{
    for (size_t at = count; at > 0; at--) {
        const struct file *file = &files[at - 1];
        struct gix_glob_path rest = *path;
        const size_t found = strip(file->base, fold, &rest) ? last_match(file, &rest, fold, answer) : GIX_GLOB_NONE;
        if (found != GIX_GLOB_NONE) {
            add_word(text, gix_glob_is_negative(&file->patterns[found]) ? "kept " : "ignored ");
            add_number(text, at);
            add_word(text, ":");
            add_number(text, file->numbers[found]);
            return;
        }
    }
    add_word(text, "none");
}

static bool decided(const struct field *fields, size_t count, struct answer *answer)
{
    const size_t file_count = read_files(fields + 2, count - 2);
    struct field rest = fields[1], line;
    struct text text = {.len = 0};
    while (take(&rest, '\n', &line)) {
        const struct gix_glob_path path = path_of(&line);
        if (is_plain(&path))
            add_decision(&text, file_count, &path, folds(&fields[0]), answer);
        else
            add_word(&text, "!");
        add_word(&text, "\n");
    }
    push_text(answer, &text);
    return true;
}

/* Which line decides about a path in a work tree, of the files in the fields from `first` on. */
static bool trees(const struct field *fields, size_t count, size_t first, struct answer *answer)
{
    const size_t file_count = read_files(fields + first, count - first);
    const struct gix_glob_path path = path_of(&fields[first - 1]);
    struct gix_glob_list lists[MOST_FILES];
    struct gix_glob_decision by = GIX_GLOB_DECISION_INIT, in_turn = GIX_GLOB_DECISION_INIT;
    struct text text = {.len = 0};
    for (size_t i = 0; i < file_count; i++) {
        lists[i] = files[i].list;
        lists[i].base = text_of(files[i].base);
    }
    const bool is_decided = gix_glob_decide_in_tree(gix_glob_lists_of(lists, file_count), path.text, path.is_dir, folds(&fields[0]), &by);
    for (size_t i = 0; i < file_count; i++)
        lists[i] = gix_glob_list_of(lists[i].patterns, lists[i].count, lists[i].base);
    agree(answer, "gix_glob_decide_in_tree of lists that aren't prepared",
          gix_glob_decide_in_tree(gix_glob_lists_of(lists, file_count), path.text, path.is_dir, folds(&fields[0]), &in_turn) == is_decided &&
              in_turn.list == by.list && in_turn.pattern == by.pattern);
    if (!is_decided) {
        push_none(answer);
        return true;
    }
    add_number(&text, by.list + 1);
    add_word(&text, ":");
    add_number(&text, files[by.list].numbers[by.pattern]);
    push_text(answer, &text);
    return true;
}

bool answer_ignore(const char *subject, const struct field *fields, size_t count, struct answer *answer)
{
    if (strcmp(subject, "repository_paths") == 0)
        return repository_paths(fields, answer);
    if (strcmp(subject, "git_paths") == 0)
        return git_paths(fields, answer);
    if (strcmp(subject, "ignore_files") == 0)
        return ignore_files(fields, false, answer);
    if (strcmp(subject, "git_files") == 0)
        return ignore_files(fields, true, answer);
    if (strcmp(subject, "decided") == 0)
        return decided(fields, count, answer);
    if (strcmp(subject, "trees_told") == 0)
        return trees(fields, count, 3, answer);
    return strcmp(subject, "trees") == 0 && trees(fields, count, 2, answer);
}
