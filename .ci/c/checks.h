/* What the checks of the C library share. Each file beside this one has one subject: what no row of crates/rows/data asks of an
 * export. They stand without the headers of a C library. */
#ifndef CHECKS_H
#define CHECKS_H

#include "gix_glob.h"

#define COUNT_OF(rows) (sizeof(rows) / sizeof *(rows))

/* A text as an argument. */
#define OF(literal) ((struct gix_glob_text)GIX_GLOB_TEXT(literal))

/* Tells what isn't so of which row, counted from 0. */
void check(bool is_so, const char *asked, size_t row);

static inline bool is_text(struct gix_glob_text text, struct gix_glob_text wanted)
{
    bool is_same = text.len == wanted.len;
    for (size_t i = 0; is_same && i < text.len; i++)
        is_same = text.bytes[i] == wanted.bytes[i];
    return is_same;
}

/* The pattern of a line that has one. */
static inline struct gix_glob_pattern parsed(const char *line)
{
    struct gix_glob_pattern pattern = GIX_GLOB_PATTERN_INIT;
    check(gix_glob_parse(gix_glob_string(line), &pattern), "the line has a pattern", 0);
    return pattern;
}

/* The subjects. */
void matching(void);
void patterns(void);
void prepared(void);
void trees(void);
void ignore_lines(void);
void attribute_lines(void);
void attribute_states(void);
void memory(void);

#endif
