/* The state of an attribute: how many texts and marks are wanted, what stays as it was, and lists that say nothing. */
#include "checks.h"

enum { NO_KIND = 9, MOST_TEXTS = 12, MOST_MARKS = 5 };

/* What is asked of attributes. Where no state is told, that before the call stays. */
struct question {
    struct gix_glob_path path;
    struct gix_glob_text name;
    size_t text_count, mark_count;
    uint32_t kind;
    struct gix_glob_text value;
};

#define UNTOLD NO_KIND, GIX_GLOB_TEXT("untouched")
#define STATE(kind) kind, GIX_GLOB_TEXT("")

/* Asks with the memory that a question gives, and looks at what lies behind it. */
static void ask(const struct gix_glob_attributes *attributes, const struct question *question, size_t row)
{
    struct gix_glob_text texts[MOST_TEXTS + 1];
    bool marks[MOST_MARKS];
    struct gix_glob_state state = {GIX_GLOB_TEXT("untouched"), NO_KIND};
    gix_glob_texts_of(texts, MOST_TEXTS + 1);
    for (size_t i = 0; i < MOST_MARKS; i++)
        marks[i] = true;
    const uint8_t *behind = texts[question->text_count].bytes;
    const struct gix_glob_marks some = {marks, question->mark_count};
    const bool is_told = gix_glob_attribute_of(attributes, &question->path, question->name, gix_glob_texts_of(texts, question->text_count),
                                               some, false, &state);
    check(is_told == (question->kind != NO_KIND), "a state is told", row);
    check(state.kind == question->kind && is_text(state.value, question->value), "the state", row);
    check(texts[question->text_count].bytes == behind && texts[question->text_count].len == 0, "a text behind the memory stays", row);
    check(marks[attributes->macro_count] && marks[question->mark_count], "a mark behind those of the macros stays", row);
}

static void too_little_memory_is_refused(void)
{
    const struct gix_glob_attribute_line lines[] = {
        {parsed("*"), GIX_GLOB_TEXT("o")},
        {parsed("d"), GIX_GLOB_TEXT("m")},
        {parsed("e"), GIX_GLOB_TEXT("text binary")},
        {parsed("f"), GIX_GLOB_TEXT("binary text")},
    };
    static const struct gix_glob_macro macros[] = {
        GIX_GLOB_MACRO_BINARY,
        {GIX_GLOB_TEXT("o"), GIX_GLOB_TEXT("diff=1 p")},
        {GIX_GLOB_TEXT("m"), GIX_GLOB_TEXT(" k=m o=n binary")},
        {GIX_GLOB_TEXT("o"), GIX_GLOB_TEXT(" p=1  p=2 m q=v")},
    };
    const struct gix_glob_attribute_list list = gix_glob_attribute_list_of(lines, 4, OF(""));
    const struct gix_glob_attributes all = gix_glob_attributes_of(&list, 1, macros, 4), none = gix_glob_attributes_of(NULL, 0, macros, 4);
    /* two lines match `d`, two macros are put in, and for `r`, which nothing names, all is told */
    static const struct question questions[] = {
        {{GIX_GLOB_TEXT("d"), false}, GIX_GLOB_TEXT("r"), 0, 4, UNTOLD},
        {{GIX_GLOB_TEXT("d"), false}, GIX_GLOB_TEXT("r"), 1, 4, UNTOLD},
        {{GIX_GLOB_TEXT("d"), false}, GIX_GLOB_TEXT("r"), 2, 4, UNTOLD},
        {{GIX_GLOB_TEXT("d"), false}, GIX_GLOB_TEXT("r"), 3, 4, UNTOLD},
        {{GIX_GLOB_TEXT("d"), false}, GIX_GLOB_TEXT("r"), 4, 4, STATE(GIX_GLOB_UNSPECIFIED)},
        {{GIX_GLOB_TEXT("d"), false}, GIX_GLOB_TEXT("r"), 11, 3, UNTOLD},
        {{GIX_GLOB_TEXT("d"), false}, GIX_GLOB_TEXT("r"), 11, 0, UNTOLD},
        {{GIX_GLOB_TEXT("d"), false}, GIX_GLOB_TEXT("o"), 11, 4, GIX_GLOB_VALUE, GIX_GLOB_TEXT("n")},
        {{GIX_GLOB_TEXT("e"), false}, GIX_GLOB_TEXT("text"), 8, 4, STATE(GIX_GLOB_UNSET)},
        {{GIX_GLOB_TEXT("f"), false}, GIX_GLOB_TEXT("text"), 8, 4, STATE(GIX_GLOB_SET)},
        {{GIX_GLOB_TEXT(""), false}, GIX_GLOB_TEXT("o"), 8, 4, UNTOLD},
        {{GIX_GLOB_TEXT("/d"), false}, GIX_GLOB_TEXT("o"), 8, 4, UNTOLD},
        {{GIX_GLOB_TEXT("d//e"), false}, GIX_GLOB_TEXT("o"), 8, 4, UNTOLD},
        {{GIX_GLOB_TEXT("d/"), true}, GIX_GLOB_TEXT("o"), 8, 4, UNTOLD},
    };
    for (size_t row = 0; row < COUNT_OF(questions); row++)
        ask(&all, &questions[row], row);
    /* a list behind the count isn't asked */
    static const struct question of_none = {{GIX_GLOB_TEXT("d"), false}, GIX_GLOB_TEXT("o"), 8, 4, STATE(GIX_GLOB_UNSPECIFIED)};
    ask(&none, &of_none, COUNT_OF(questions));
}

static void other_bases_say_nothing(void)
{
    const struct gix_glob_attribute_line line = {parsed("*"), GIX_GLOB_TEXT("a")};
    static const struct {
        struct gix_glob_text base;
        struct question question;
    } rows[] = {
        {GIX_GLOB_TEXT("d"), {{GIX_GLOB_TEXT("de"), false}, GIX_GLOB_TEXT("a"), 1, 0, STATE(GIX_GLOB_UNSPECIFIED)}},
        {GIX_GLOB_TEXT("d"), {{GIX_GLOB_TEXT("d/e"), false}, GIX_GLOB_TEXT("a"), 1, 0, STATE(GIX_GLOB_UNSPECIFIED)}},
        {GIX_GLOB_TEXT("d/e"), {{GIX_GLOB_TEXT("d/e"), false}, GIX_GLOB_TEXT("a"), 1, 0, STATE(GIX_GLOB_UNSPECIFIED)}},
        {GIX_GLOB_TEXT("/"), {{GIX_GLOB_TEXT("d/e"), false}, GIX_GLOB_TEXT("a"), 1, 0, STATE(GIX_GLOB_UNSPECIFIED)}},
        {GIX_GLOB_TEXT("d/"), {{GIX_GLOB_TEXT("d/e"), false}, GIX_GLOB_TEXT("a"), 1, 0, STATE(GIX_GLOB_SET)}},
    };
    for (size_t row = 0; row < COUNT_OF(rows); row++) {
        const struct gix_glob_attribute_list list = gix_glob_attribute_list_of(&line, 1, rows[row].base);
        const struct gix_glob_attributes all = gix_glob_attributes_of(&list, 1, NULL, 0);
        ask(&all, &rows[row].question, row);
    }
}

void attribute_states(void)
{
    too_little_memory_is_refused();
    other_bases_say_nothing();
}
