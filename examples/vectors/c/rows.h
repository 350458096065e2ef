/* Fields of questions and of answers, spelt as docs/VECTORS.md tells. */
#ifndef ROWS_H
#define ROWS_H

#include <gix_glob.h>
#include <stdio.h>
#include <stdlib.h>
#include <string.h>

enum { MOST_FIELDS = 64, MOST_BYTES = 1 << 16, MOST_SIGNS = 1 << 18 };

/* A field of a question: its bytes, and whether it stands for nothing. */
struct field {
    const uint8_t *bytes;
    size_t len;
    bool is_none;
};

static inline bool is(const struct field *field, const char *word)
{
    return !field->is_none && field->len == strlen(word) && memcmp(field->bytes, word, field->len) == 0;
}

/* Whether the case of letters doesn't count, by a field `sensitive` or `fold`. */
static inline bool folds(const struct field *field) { return is(field, "fold"); }

/* The mode of a field `plain`, `path`, `fold` or `path+fold`. */
static inline struct gix_glob_match_mode mode_of(const struct field *field)
{
    const unsigned path = is(field, "path") || is(field, "path+fold") ? GIX_GLOB_NO_MATCH_SLASH_LITERAL : 0;
    return gix_glob_match_mode_of(path | (is(field, "fold") || is(field, "path+fold") ? GIX_GLOB_IGNORE_CASE : 0));
}

/* The bytes of a field, of which one that stands for nothing has none. */
static inline struct gix_glob_text text_of(const struct field *field)
{
    return gix_glob_text_of(field->bytes, field->is_none ? 0 : field->len);
}

/* The pattern of a line that has one. */
static inline struct gix_glob_pattern parsed(const struct field *line)
{
    struct gix_glob_pattern pattern = GIX_GLOB_PATTERN_INIT;
    if (!gix_glob_parse(text_of(line), &pattern))
        pattern.text.len = 0;
    return pattern;
}

/* The pattern of a line as Git reads it. */
static inline struct gix_glob_pattern parsed_as_git(const struct field *line)
{
    struct gix_glob_pattern pattern = GIX_GLOB_PATTERN_INIT;
    gix_glob_parse_as_git(text_of(line), &pattern);
    return pattern;
}

/* Takes the bytes up to the next `end`, which is passed over, off a field. Answers whether there were some, or an end. */
static inline bool take(struct field *rest, uint8_t end, struct field *taken)
{
    size_t len = 0;
    while (len < rest->len && rest->bytes[len] != end)
        len++;
    *taken = (struct field){rest->bytes, len, false};
    const bool is_there = rest->len > 0;
    len += len < rest->len;
    rest->bytes += len;
    rest->len -= len;
    return is_there;
}

/* A path as a row has it: one that ends in a slash is a directory's. */
static inline struct gix_glob_path path_of(const struct field *field)
{
    const bool is_dir = field->len > 0 && field->bytes[field->len - 1] == '/';
    return (struct gix_glob_path){gix_glob_text_of(field->bytes, field->len - is_dir), is_dir};
}

/* Whether the question or its answer is larger than what the arrays of this program hold. */
extern bool lacks_room;

/* Whether the files of a row are read as Git reads them. */
extern bool reads_as_git;

/* Bytes that grow. */
struct text {
    uint8_t bytes[MOST_BYTES];
    size_t len;
};

static inline void add(struct text *text, const void *bytes, size_t len)
{
    lacks_room |= len > sizeof text->bytes - text->len;
    if (lacks_room)
        return;
    memcpy(text->bytes + text->len, bytes, len);
    text->len += len;
}

static inline void add_word(struct text *text, const char *word) { add(text, word, strlen(word)); }

static inline void add_number(struct text *text, size_t number)
{
    char digits[24];
    add(text, digits, (size_t)sprintf(digits, "%zu", number));
}

/* Adds a pattern as its line would show it. */
static inline void add_pattern(struct text *text, const struct gix_glob_pattern *pattern)
{
    add_word(text, pattern->mode.bits & GIX_GLOB_NEGATIVE ? "!" : "");
    add_word(text, pattern->mode.bits & GIX_GLOB_ABSOLUTE ? "/" : "");
    add(text, pattern->text.bytes, pattern->text.len);
    add_word(text, pattern->mode.bits & GIX_GLOB_MUST_BE_DIR ? "/" : "");
}

/* An answer: its fields as they are spelt, and the call that answered otherwise than another one, if any. */
struct answer {
    struct text text;
    bool has_field;
    const char *differs;
};

/* Adds a field of bytes. */
static inline void push(struct answer *answer, const void *bytes, size_t len)
{
    char spelt[8];
    add_word(&answer->text, answer->has_field ? "\t" : "");
    answer->has_field = true;
    for (size_t i = 0; i < len; i++) {
        const uint8_t byte = ((const uint8_t *)bytes)[i];
        const bool is_usual = byte >= ' ' && byte <= '~' && (byte != ' ' || (i > 0 && i < len - 1));
        sprintf(spelt, byte == '\\' ? "\\\\" : is_usual ? "%c" : "\\x%02x", byte);
        add_word(&answer->text, spelt);
    }
}

static inline void push_text(struct answer *answer, const struct text *text) { push(answer, text->bytes, text->len); }

static inline void push_none(struct answer *answer)
{
    add_word(&answer->text, answer->has_field ? "\t\\N" : "\\N");
    answer->has_field = true;
}

static inline void push_number(struct answer *answer, size_t number)
{
    char digits[24];
    if (number == GIX_GLOB_NONE)
        push_none(answer);
    else
        push(answer, digits, (size_t)sprintf(digits, "%zu", number));
}

static inline void push_bool(struct answer *answer, bool is_so) { push(answer, is_so ? "yes" : "no", is_so ? 3 : 2); }

/* Notes a call that doesn't agree with the one that gave the answer. */
static inline void agree(struct answer *answer, const char *call, bool does_agree)
{
    if (!does_agree)
        answer->differs = call;
}

/* Answer a question about ignore files and paths, or about attributes; false where no call answers it. */
bool answer_ignore(const char *subject, const struct field *fields, size_t count, struct answer *answer);
bool answer_attributes(const char *subject, const struct field *fields, size_t count, struct answer *answer);

#endif
