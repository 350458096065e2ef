/* Answers rows by the C library: tools/vectors PROGRAM, where PROGRAM is built of the files of this folder. Of several calls that
 * answer a question all are asked: where they don't agree, the answer is `differs: ` and the name of one. What no call answers is `?`,
 * and so is what is too large for the arrays of this program, or so long that calls which ask each pattern in turn would take minutes.
 *
 * tools/vectors --git PROGRAM as-git asks the rows of files that Git answered: each file is then read as Git reads it. */
#include "rows.h"

bool lacks_room, reads_as_git;

static bool matching(const struct field *fields, struct answer *answer)
{
    const struct field *text = &fields[1], *value = &fields[2];
    const struct gix_glob_match_mode mode = mode_of(&fields[0]);
    const bool matches = gix_glob_wildmatch(text_of(text), text_of(value), mode);
    struct gix_glob_pattern pattern = GIX_GLOB_PATTERN_INIT;
    pattern.text = text_of(text);
    pattern.first_wildcard_pos = 0;
    while (pattern.first_wildcard_pos < text->len && !memchr("*?[\\", text->bytes[pattern.first_wildcard_pos], 4))
        pattern.first_wildcard_pos++;
    agree(answer, "gix_glob_matches", gix_glob_matches(&pattern, text_of(value), mode) == matches);
    push_bool(answer, matches);
    return true;
}

static bool values(const struct field *fields, struct answer *answer)
{
    const struct gix_glob_pattern pattern = parsed(&fields[1]);
    const struct field *value = &fields[2];
    const struct gix_glob_match_mode mode = mode_of(&fields[0]);
    const bool matches = gix_glob_matches(&pattern, text_of(value), mode);
    agree(answer, "gix_glob_wildmatch", gix_glob_wildmatch(pattern.text, text_of(value), mode) == matches);
    push_bool(answer, matches);
    return true;
}

static void push_pattern(struct answer *answer, const struct gix_glob_pattern *pattern)
{
    push(answer, pattern->text.bytes, pattern->text.len);
    push_number(answer, pattern->mode.bits);
    push_number(answer, pattern->first_wildcard_pos);
}

static bool reading(const struct field *fields, struct answer *answer)
{
    struct gix_glob_pattern pattern = GIX_GLOB_PATTERN_INIT;
    if (!is(&fields[0], "line"))
        return false;
    if (gix_glob_parse(text_of(&fields[1]), &pattern))
        push_pattern(answer, &pattern);
    else
        for (int i = 0; i < 3; i++)
            push_none(answer);
    return true;
}

static bool git_reading(const struct field *fields, struct answer *answer)
{
    const struct gix_glob_pattern pattern = parsed_as_git(&fields[0]);
    push_pattern(answer, &pattern);
    return true;
}

static bool answer_row(const char *subject, const struct field *fields, size_t count, struct answer *answer)
{
    /* (other rows are of the crate's reading, or say that they are of Git's) */
    if (reads_as_git && strcmp(subject, "trees") != 0 && strcmp(subject, "attribute_states") != 0)
        return false;
    if (strcmp(subject, "matching") == 0)
        return matching(fields, answer);
    if (strcmp(subject, "values") == 0)
        return values(fields, answer);
    if (strcmp(subject, "reading") == 0)
        return reading(fields, answer);
    if (strcmp(subject, "git_reading") == 0)
        return git_reading(fields, answer);
    return answer_ignore(subject, fields, count, answer) || answer_attributes(subject, fields, count, answer);
}

static unsigned digit(char sign) { return sign <= '9' ? (unsigned)(sign - '0') : (unsigned)(sign - 'a' + 10); }

/* Reads the spelling of a field, in place. */
static struct field read_field(char *text)
{
    uint8_t *bytes = (uint8_t *)text;
    struct field field = {bytes, 0, strcmp(text, "\\N") == 0};
    for (char *at = text; *at && !field.is_none; at++) {
        if (at[0] == '\\' && at[1] == 'x') {
            bytes[field.len++] = (uint8_t)(16 * digit(at[2]) + digit(at[3]));
            at += 3;
        } else {
            at += at[0] == '\\';
            bytes[field.len++] = (uint8_t)*at;
        }
    }
    return field;
}

int main(int count_of_words, char **words)
{
    static struct field fields[MOST_FIELDS];
    static struct answer answer;
    char *line = NULL, *rest;
    size_t room = 0, count;
    reads_as_git = count_of_words > 1 && strcmp(words[1], "as-git") == 0;
    for (ssize_t len; (len = getline(&line, &room, stdin)) > 0;) {
        if (len > MOST_SIGNS) {
            puts("?");
            continue;
        }
        line[strcspn(line, "\n")] = 0;
        rest = line;
        const char *subject = strsep(&rest, "\t");
        for (count = 0; rest && count < MOST_FIELDS; count++)
            fields[count] = read_field(strsep(&rest, "\t"));
        lacks_room = false;
        answer.text.len = 0;
        answer.has_field = false;
        answer.differs = NULL;
        if (!answer_row(subject, fields, count, &answer) || lacks_room)
            puts("?");
        else if (answer.differs)
            printf("differs: %s\n", answer.differs);
        else
            printf("%.*s\n", (int)answer.text.len, (const char *)answer.text.bytes);
    }
    free(line);
    return 0;
}
