/* Git's glob patterns, proved: the C library gix_glob_c, static or shared.
 *
 * Parse a line once, match it against paths, and let the last match of a list decide. Nothing is allocated, nothing is kept
 * after a call, and there is no state: calls may run in any threads at once, as long as no other thread writes what they read.
 * For who would rather have the rules of files kept and asked by five calls, gix_glob_rules.h stands over this header.
 *
 * What a call asks of its caller, and can't check. These are all rules; no call has one of its own:
 *  1. A struct is what its initialiser, its function `.._of` or a call wrote, or a copy of that. So no pointer in it is NULL, also
 *     where its count is 0; the functions take NULL there, from C++ too, whose empty containers have no other pointer.
 *  2. A pointer with a count leads to as many elements, which can be read, lie as C aligns them, and were written before, be it with
 *     zeros; together they have fewer than 2^63 bytes. A pointer without a count leads to one struct. A text is bytes of any kind,
 *     and needs no byte 0 at its end.
 *  3. What a call writes overlaps nothing else that it is handed, or that is led to from there: neither what it reads, nor what else
 *     it writes. What it reads may overlap.
 *  4. What a struct leads to stays where it is, and as it is, as long as the struct is handed to calls.
 * Structs whose parts don't belong together, by rule 1 or not, may give a wrong answer, and nothing worse, as long as 2 and 3 hold.
 *
 * The work of a call is not in its contract: beside some readings of its texts, a match takes at most what "The bounds" in
 * docs/PROOFS.md says, a small multiple of the product of both lengths; a decision, and the state of an attribute before its words
 * are looked at, the sum of that over all patterns; a decision in a work tree that sum once for each folder above the path, and once
 * for the path.
 *
 * How the library grows: a struct never changes its size or its fields, and a call never its parameters, while the library's name,
 * libgix_glob_c.so.N, stays the same: N is the major version, or 0.M with the minor one M while the major one is 0. What is new has a
 * new name, and gix_glob_version() says whether it is there. What the library alone knows, it keeps in blocks whose size is asked of it.
 *
 * C99 or C++11 is needed, and a processor of x86-64-v2.
 *
 * For other languages: a struct of a pointer and a count that is passed by value is passed as two parameters, and one of a number as that
 * number, by the calling convention of x86-64 Linux, for which the library is made.
 *
 * The rules of matching, of pattern lines, of ignore files and of attribute files are in docs/PATTERNS.md.
 */
#ifndef GIX_GLOB_H
#define GIX_GLOB_H

#if !defined(__cplusplus) && (!defined(__STDC_VERSION__) || __STDC_VERSION__ < 199901L)
#error "gix_glob.h needs C99 or later (-std=c99)"
#endif

#include <stdbool.h>
#include <stddef.h>
#include <stdint.h>

/* The version of this header, as major * 10000 + minor * 100 + patch. */
#define GIX_GLOB_VERSION_MAJOR 0
#define GIX_GLOB_VERSION_MINOR 4
#define GIX_GLOB_VERSION_PATCH 0
#define GIX_GLOB_VERSION (GIX_GLOB_VERSION_MAJOR * 10000 + GIX_GLOB_VERSION_MINOR * 100 + GIX_GLOB_VERSION_PATCH)

/* ---- what compilers are told: no caller writes it */

/* A call's pointers to structs aren't NULL, its answer is to be looked at, and it only reads. */
#if defined(__GNUC__)
#define GIX_GLOB_CALL __attribute__((nonnull))
#define GIX_GLOB_TELLS __attribute__((nonnull, warn_unused_result))
#define GIX_GLOB_READS __attribute__((nonnull, warn_unused_result, pure))
#define GIX_GLOB_CONST __attribute__((const, warn_unused_result))
#else
#define GIX_GLOB_CALL
#define GIX_GLOB_TELLS
#define GIX_GLOB_READS
#define GIX_GLOB_CONST
#endif

#ifdef __cplusplus
extern "C" {
#endif

/* ---- the version of the library */

/* That of the library which was linked, as that of the header. */
GIX_GLOB_CONST uint32_t gix_glob_version(void);

/* No place, and no index: the only number that a call writes or answers for none. */
#define GIX_GLOB_NONE SIZE_MAX

/* ---- texts */

/* Bytes: struct gix_glob_text text = GIX_GLOB_TEXT("of a literal");
 * The literal may be left out for no bytes. */
struct gix_glob_text {
    const uint8_t *bytes;
    size_t len;
};

#define GIX_GLOB_TEXT(literal) { (const uint8_t *)("" literal), sizeof("" literal) - 1 }

/* A pointer that may be handed over where there are no elements, of any kind. */
static inline void *gix_glob_some(const void *elements)
{
    static uint64_t none;
    return elements ? (void *)(uintptr_t)elements : (void *)&none;
}

/* So many bytes. */
static inline struct gix_glob_text gix_glob_text_of(const void *bytes, size_t len)
{
    struct gix_glob_text text;
    text.bytes = (const uint8_t *)gix_glob_some(bytes);
    text.len = len;
    return text;
}

/* The bytes before the byte 0 of a string, which isn't NULL. */
static inline struct gix_glob_text gix_glob_string(const char *string)
{
    size_t len = 0;
    while (string[len])
        len++;
    return gix_glob_text_of(string, len);
}

/* ---- modes: two sets of bits, each of a type of its own */

/* Of a match. Other bits change no answer. */
struct gix_glob_match_mode {
    uint8_t bits;
};

#define GIX_GLOB_NO_MATCH_SLASH_LITERAL 1u /* path mode: a wildcard matches no slash, save two or more stars that stand
                                              alone between slashes, escaped or not, or ends of the pattern */
#define GIX_GLOB_IGNORE_CASE 2u            /* the case of ASCII letters doesn't matter */

static inline struct gix_glob_match_mode gix_glob_match_mode_of(unsigned bits)
{
    struct gix_glob_match_mode mode;
    mode.bits = (uint8_t)bits;
    return mode;
}

/* Of a pattern: what was read of its line. */
struct gix_glob_pattern_mode {
    uint32_t bits;
};

#define GIX_GLOB_NO_SUB_DIR 1u  /* the text has no slash */
#define GIX_GLOB_ENDS_WITH 2u   /* the text is a star, and after it a literal */
#define GIX_GLOB_MUST_BE_DIR 4u /* the line ended in a slash: the pattern is for directories only */
#define GIX_GLOB_NEGATIVE 8u    /* the line began with '!': what it matches isn't ignored */
#define GIX_GLOB_ABSOLUTE 16u   /* the line began with a slash */

/* ---- patterns */

/* Whose reading a pattern is: that of the Rust crate gix-glob, or Git's own. By Git's, the bytes before the first of * ? [ and \ of
 * a pattern with a slash are compared by themselves, and what follows is a pattern of its own; and folding leaves the members of
 * sets and escaped letters as they are. All patterns of one call are of one reading: that of the first applies. */
#define GIX_GLOB_AS_CRATE 0u
#define GIX_GLOB_AS_GIT 1u

/* A pattern that was read. */
struct gix_glob_pattern {
    struct gix_glob_text text; /* the bytes that are matched: a part of the line that they were read of */
    size_t first_wildcard_pos; /* the place of the first of * ? [ and \ in the text, from 0; GIX_GLOB_NONE where there is
                                  none. A call that matches takes any place past the text's end for none */
    struct gix_glob_pattern_mode mode;
    uint32_t reading; /* GIX_GLOB_AS_CRATE, or any other number for GIX_GLOB_AS_GIT */
};

/* A pattern before one was read: struct gix_glob_pattern pattern = GIX_GLOB_PATTERN_INIT; */
#define GIX_GLOB_PATTERN_INIT { GIX_GLOB_TEXT(), GIX_GLOB_NONE, { 0 }, GIX_GLOB_AS_CRATE }

/* Whether a '!' stood before the pattern. */
static inline bool gix_glob_is_negative(const struct gix_glob_pattern *pattern)
{
    return pattern->mode.bits & GIX_GLOB_NEGATIVE;
}

/* Reads a pattern line, without its line feed. This is no line of an ignore file: a '#' begins no comment, and spaces and a
 * carriage return at the end belong to the pattern. gix_glob_parse_ignore_line reads those.
 *   out  receives the pattern; it stays as it was where false is answered
 * Answers whether there is a pattern: a line of white space alone, also behind a '!', has none. */
GIX_GLOB_TELLS bool gix_glob_parse(struct gix_glob_text line, struct gix_glob_pattern *out);

/* The same as Git reads it. Each line has a pattern, which may be empty. */
GIX_GLOB_CALL void gix_glob_parse_as_git(struct gix_glob_text line, struct gix_glob_pattern *out);

/* Whether a pattern matches a path. Its '!' isn't looked at.
 *   path    from the folder of the pattern's file on, with single slashes between its parts. A path that is empty, has a slash at its
 *           front or end, or two in a row, is matched by nothing, here and in each other call
 *   is_dir  whether the path is a directory's
 *   fold    whether the case of ASCII letters doesn't matter */
GIX_GLOB_READS bool gix_glob_pattern_matches_path(const struct gix_glob_pattern *pattern, struct gix_glob_text path, bool is_dir, bool fold);

/* Reads a line as gix_glob_parse does and matches it against a path, for one question. A line without a pattern matches nothing. */
GIX_GLOB_READS bool gix_glob_matches_path(struct gix_glob_text line, struct gix_glob_text path, bool is_dir, bool fold);

/* Whether a pattern, as it is written, matches the whole of a value. */
GIX_GLOB_READS bool gix_glob_wildmatch(struct gix_glob_text pattern, struct gix_glob_text value, struct gix_glob_match_mode mode);

/* Whether the text of a pattern that was read matches the whole of a value, as gix_glob_wildmatch answers, by shortcuts where it can. */
GIX_GLOB_READS bool gix_glob_matches(const struct gix_glob_pattern *pattern, struct gix_glob_text value, struct gix_glob_match_mode mode);

/* ---- files */

/* What is left to read of a file. */
struct gix_glob_lines {
    struct gix_glob_text rest; /* what stands behind the lines that were read, up to the file's end; no byte is left there after the last
                                  one. A call takes as many bytes as this falls by */
    size_t number;             /* the number of the line that was read last, from 1; 0 before the first */
};

#define GIX_GLOB_LINES_INIT { GIX_GLOB_TEXT(), 0 }

/* All lines of a file. */
static inline struct gix_glob_lines gix_glob_lines_of(const void *bytes, size_t len)
{
    struct gix_glob_lines lines;
    lines.rest = gix_glob_text_of(bytes, len);
    lines.number = 0;
    return lines;
}

/* What a line of a file gives. */
enum gix_glob_line {
    GIX_GLOB_LINE_END = 0,             /* no line was left */
    GIX_GLOB_LINE_NOTHING = 1,         /* it is blank or a comment */
    GIX_GLOB_LINE_PATTERN = 2,         /* a pattern */
    GIX_GLOB_LINE_MACRO = 3,           /* a macro */
    GIX_GLOB_LINE_TOO_LONG = 4,        /* it says nothing: it has 2,048 bytes or more */
    GIX_GLOB_LINE_MACRO_BELOW_TOP = 5, /* it says nothing: a macro in the file of a folder below the top */
    GIX_GLOB_LINE_MACRO_NAME = 6,      /* it says nothing: no macro can have this name */
    GIX_GLOB_LINE_ATTRIBUTE_NAME = 7,  /* it says nothing: it has a word whose name no attribute can have */
    GIX_GLOB_LINE_NEGATIVE = 8,        /* it says nothing: its pattern begins with '!' */
    GIX_GLOB_LINE_FILE_TOO_LARGE = 9,  /* no line is read: the file has 100 MiB or more */
    GIX_GLOB_LINE_NO_MEMORY = 10       /* no line was read: the memory is too short for it */
};

/* Takes the next line off an ignore file and reads it by the rules of those files: a byte order mark at the front isn't read, a
 * line ends at a line feed or at the end of the bytes, a carriage return before the line feed and the spaces at the end aren't
 * read (a space after a backslash is), and a line that begins with '#' is a comment.
 *   lines  the lines that are left
 *   out    receives the line's pattern; it stays as it was where the line has none
 * Answers END, NOTHING or PATTERN. */
GIX_GLOB_TELLS enum gix_glob_line gix_glob_parse_ignore_line(struct gix_glob_lines *lines, struct gix_glob_pattern *out);

/* The same as Git reads the file: one carriage return is taken off each line, a byte 0 ends the text of a line, and only a line
 * without bytes, or one that begins with '#', has no pattern. */
GIX_GLOB_TELLS enum gix_glob_line gix_glob_parse_ignore_line_as_git(struct gix_glob_lines *lines, struct gix_glob_pattern *out);

/* ---- lists */

/* A list of patterns: those of one ignore file, and its folder. */
struct gix_glob_list {
    const struct gix_glob_pattern *patterns; /* in the order of their lines */
    size_t count;                            /* how many */
    struct gix_glob_text base; /* the folder of the file, from the top of the work tree on: empty, or with a slash at its end. A
                                  list with another base says nothing */
    const void *rows;          /* what gix_glob_prepare_list wrote, or nothing */
    size_t row_count;
    const void *heads;
    size_t head_count;
};

static inline struct gix_glob_list gix_glob_list_of(const struct gix_glob_pattern *patterns, size_t count, struct gix_glob_text base)
{
    struct gix_glob_list list;
    list.patterns = (const struct gix_glob_pattern *)gix_glob_some(patterns);
    list.count = count;
    list.base = base;
    list.rows = list.heads = gix_glob_some(NULL);
    list.row_count = list.head_count = 0;
    return list;
}

/* How many bytes gix_glob_prepare_list writes for so many patterns; GIX_GLOB_NONE for 2^32 or more, which can't be prepared. */
GIX_GLOB_CONST size_t gix_glob_prepared_size(size_t count);

/* For gix_glob_prepare_list alone: at which byte of the block its second part begins, and how both are written. */
struct gix_glob_patterns {
    const struct gix_glob_pattern *patterns;
    size_t count;
};
struct gix_glob_rows {
    void *rows;
    size_t count;
};
GIX_GLOB_CONST size_t gix_glob_rows_at(void);
GIX_GLOB_TELLS bool gix_glob_prepare(struct gix_glob_patterns patterns, struct gix_glob_rows rows, void *heads);

/* Prepares a list that many paths are asked about: a path then costs little among a thousand patterns. No answer changes. Nothing is
 * allocated: the caller gives a block.
 *   block, size  gix_glob_prepared_size(list->count) bytes or more, aligned to 8, as malloc and calloc give them. They are a part of the
 *                list from now on
 * Answers whether there was room. Else nothing is written. */
static inline bool gix_glob_prepare_list(struct gix_glob_list *list, void *block, size_t size)
{
    struct gix_glob_patterns patterns;
    struct gix_glob_rows rows;
    if (!block || size < gix_glob_prepared_size(list->count))
        return false;
    patterns.patterns = list->patterns;
    patterns.count = list->count;
    rows.rows = (char *)block + gix_glob_rows_at();
    rows.count = list->count;
    if (!gix_glob_prepare(patterns, rows, block))
        return false;
    list->rows = rows.rows;
    list->row_count = rows.count;
    list->heads = block;
    list->head_count = 1;
    return true;
}

/* The index of the last pattern of a list that matches a path, or GIX_GLOB_NONE where none does. Of an ignore file that one decides about
 * the path by itself; gix_glob_decide_in_tree also asks about the folders above it.
 *   path ..  from the top of the work tree on: what lies outside of the list's base is matched by nothing */
GIX_GLOB_READS size_t gix_glob_last_match(const struct gix_glob_list *list, struct gix_glob_text path, bool is_dir, bool fold);

/* A path that is asked about, and several of them: struct gix_glob_path path = { GIX_GLOB_TEXT("a/b"), false }; */
struct gix_glob_path {
    struct gix_glob_text text;
    bool is_dir; /* whether it is a directory's */
};

struct gix_glob_paths {
    const struct gix_glob_path *paths;
    size_t count;
};

static inline struct gix_glob_paths gix_glob_paths_of(const struct gix_glob_path *paths, size_t count)
{
    struct gix_glob_paths all;
    all.paths = (const struct gix_glob_path *)gix_glob_some(paths);
    all.count = count;
    return all;
}

/* Where an index is written for each path. */
struct gix_glob_places {
    size_t *places;
    size_t count;
};

static inline struct gix_glob_places gix_glob_places_of(size_t *places, size_t count)
{
    struct gix_glob_places all;
    all.places = (size_t *)gix_glob_some(places);
    all.count = count;
    return all;
}

/* What gix_glob_last_match answers for each of several paths, by one call: for languages from which a call costs more than an answer.
 *   places  receive for each path the index of a pattern, or GIX_GLOB_NONE; more places stay as they were
 * Answers whether there are as many places as paths, or more. Else nothing is written. */
GIX_GLOB_TELLS bool gix_glob_last_matches(const struct gix_glob_list *list, struct gix_glob_paths paths, struct gix_glob_places places, bool fold);

/* Several lists. */
struct gix_glob_lists {
    const struct gix_glob_list *lists;
    size_t count;
};

static inline struct gix_glob_lists gix_glob_lists_of(const struct gix_glob_list *lists, size_t count)
{
    struct gix_glob_lists all;
    all.lists = (const struct gix_glob_list *)gix_glob_some(lists);
    all.count = count;
    return all;
}

/* The pattern that decides about a path. */
struct gix_glob_decision {
    size_t list;    /* the index of its list */
    size_t pattern; /* its index in that list */
};

#define GIX_GLOB_DECISION_INIT { GIX_GLOB_NONE, GIX_GLOB_NONE }

/* Which pattern decides about a path in a work tree, as Git has it. The topmost folder above the path that is ignored decides
 * about the path, by the pattern that ignores the folder. Where no folder above it is ignored, the last pattern that matches
 * the path decides, and a later list comes after an earlier one. The path is ignored unless that pattern is negative.
 *   lists  files of excludes first, then that of the top, then those of the folders on the way down
 *   path   from the top on
 *   out    receives the pattern; it stays as it was where false is answered
 * Answers whether a pattern decides. */
GIX_GLOB_TELLS bool gix_glob_decide_in_tree(struct gix_glob_lists lists, struct gix_glob_text path, bool is_dir, bool fold,
                                            struct gix_glob_decision *out);

/* ---- attributes */

/* A line of an attribute file that gives a pattern. Its texts are parts of the file, or of the memory for its head. */
struct gix_glob_attribute_line {
    struct gix_glob_pattern pattern; /* which paths are meant */
    struct gix_glob_text words;      /* what they are assigned: the words behind the pattern */
};

#define GIX_GLOB_ATTRIBUTE_LINE_INIT { GIX_GLOB_PATTERN_INIT, GIX_GLOB_TEXT() }

/* A macro that a line of an attribute file defines. Its texts are parts as those of a line. */
struct gix_glob_macro {
    struct gix_glob_text name;
    struct gix_glob_text words; /* what the macro assigns */
};

/* A macro before one was read, and the one that Git has built in: it is weaker than all others, so put it first. */
#define GIX_GLOB_MACRO_INIT { GIX_GLOB_TEXT(), GIX_GLOB_TEXT() }
#define GIX_GLOB_MACRO_BINARY { GIX_GLOB_TEXT("binary"), GIX_GLOB_TEXT("-diff -merge -text") }

/* Memory for heads of lines: what is left of it. */
struct gix_glob_memory {
    uint8_t *bytes;
    size_t len;
};

static inline struct gix_glob_memory gix_glob_memory_of(void *bytes, size_t len)
{
    struct gix_glob_memory memory;
    memory.bytes = (uint8_t *)gix_glob_some(bytes);
    memory.len = len;
    return memory;
}

/* Takes the next line off an attribute file and reads it by the rules of those files.
 *   lines   the lines that are left, by gix_glob_lines_of
 *   memory  for the head of the line, where it is quoted: the head is decoded into its front and taken off it, and no byte behind is
 *           written; any other line leaves it as it was. As many bytes as the file has suffice for all its lines, one after the other
 *   line    receives what a line with a pattern gives; any other line leaves it as it was
 *   macro   receives what a line with a macro gives; any other line leaves it as it was
 *   is_top  whether the file may define macros: it isn't that of a folder below the top
 * A pattern's text and a macro's name lie where the memory began, if the head is quoted, and else in the file, as the words do.
 * Answers what the line gives. At NO_MEMORY all stays as it was. */
GIX_GLOB_TELLS enum gix_glob_line gix_glob_parse_attribute_line(struct gix_glob_lines *lines, struct gix_glob_memory *memory,
                                                                struct gix_glob_attribute_line *line, struct gix_glob_macro *macro,
                                                                bool is_top);

/* The same, with the pattern as Git reads it. */
GIX_GLOB_TELLS enum gix_glob_line gix_glob_parse_attribute_line_as_git(struct gix_glob_lines *lines, struct gix_glob_memory *memory,
                                                                       struct gix_glob_attribute_line *line, struct gix_glob_macro *macro,
                                                                       bool is_top);

/* The lines of one attribute file that give a pattern, and its folder. */
struct gix_glob_attribute_list {
    const struct gix_glob_attribute_line *lines; /* in their order */
    size_t count;                                /* how many */
    struct gix_glob_text base;                   /* as that of a list */
};

static inline struct gix_glob_attribute_list gix_glob_attribute_list_of(const struct gix_glob_attribute_line *lines, size_t count,
                                                                        struct gix_glob_text base)
{
    struct gix_glob_attribute_list list;
    list.lines = (const struct gix_glob_attribute_line *)gix_glob_some(lines);
    list.count = count;
    list.base = base;
    return list;
}

/* What all attribute files say. */
struct gix_glob_attributes {
    const struct gix_glob_attribute_list *lists; /* from the weakest file to the strongest */
    size_t count;                                /* how many */
    const struct gix_glob_macro *macros; /* GIX_GLOB_MACRO_BINARY, then those of the files in the same order; of several of a name
                                            the last applies */
    size_t macro_count;                  /* how many */
};

static inline struct gix_glob_attributes gix_glob_attributes_of(const struct gix_glob_attribute_list *lists, size_t count,
                                                                const struct gix_glob_macro *macros, size_t macro_count)
{
    struct gix_glob_attributes all;
    all.lists = (const struct gix_glob_attribute_list *)gix_glob_some(lists);
    all.count = count;
    all.macros = (const struct gix_glob_macro *)gix_glob_some(macros);
    all.macro_count = macro_count;
    return all;
}

/* Memory for a question: texts, and marks. */
struct gix_glob_texts {
    struct gix_glob_text *texts;
    size_t count;
};
struct gix_glob_marks {
    bool *marks;
    size_t count;
};

/* Both are written, so that they may hold anything before. */
static inline struct gix_glob_texts gix_glob_texts_of(struct gix_glob_text *texts, size_t count)
{
    struct gix_glob_texts all;
    all.texts = (struct gix_glob_text *)gix_glob_some(texts);
    all.count = count;
    for (size_t i = 0; i < count; i++)
        texts[i] = gix_glob_text_of(NULL, 0);
    return all;
}

static inline struct gix_glob_marks gix_glob_marks_of(bool *marks, size_t count)
{
    struct gix_glob_marks all;
    all.marks = (bool *)gix_glob_some(marks);
    all.count = count;
    for (size_t i = 0; i < count; i++)
        marks[i] = false;
    return all;
}

/* Kinds of states. */
#define GIX_GLOB_UNSPECIFIED 0u
#define GIX_GLOB_SET 1u
#define GIX_GLOB_UNSET 2u
#define GIX_GLOB_VALUE 3u

/* The state of an attribute. */
struct gix_glob_state {
    struct gix_glob_text value; /* of GIX_GLOB_VALUE: a part of the words of a line or a macro; else empty */
    uint32_t kind;              /* which of the four */
};

#define GIX_GLOB_STATE_INIT { GIX_GLOB_TEXT(), GIX_GLOB_UNSPECIFIED }

/* Which state an attribute has for a path, as Git has it. The last line that matches the path and names the attribute decides, of
 * the strongest file that has one, and of the line its last word; a macro that is set gives what it assigns at its place.
 *   attributes  what the files say
 *   path        the path from the top on
 *   name        the attribute's name
 *   texts       memory for a question, which a question leaves with parts of the files: as many suffice as there are lines in all lists
 *               and macros, together. They serve the next question too, as long as those files stay
 *   marks       memory for a question: a mark for each macro; more stay as they were
 *   fold        whether the case of ASCII letters doesn't matter in paths; it matters in names of attributes
 *   out         receives the state; it stays as it was where false is answered
 * Answers whether the state was written: where the memory is too short, or the path is none, it isn't. The time grows with the words of the
 * lines that match and of the macros, times the number of macros. */
GIX_GLOB_TELLS bool gix_glob_attribute_of(const struct gix_glob_attributes *attributes, const struct gix_glob_path *path,
                                          struct gix_glob_text name, struct gix_glob_texts texts, struct gix_glob_marks marks, bool fold,
                                          struct gix_glob_state *out);

#ifdef __cplusplus
}
#endif

#endif
