/* Which states attributes have for paths, by the attribute file at the top of a work tree: ./attributes FILE ATTR.. < PATHS
 *
 * It prints a line `PATH: ATTR: STATE` for each path and attribute, with the states of `git check-attr` where only this FILE says
 * something. A path that ends in a slash is a directory's. A line of FILE that says nothing is told on standard error.
 *
 * The status is 0 where each path was answered, 1 where something can't be read or written, and 2 for wrong words.
 *
 * Build it by `examples/c/install PREFIX` and `cc attributes.c $(pkg-config --cflags --libs gix_glob)`. */
#include <gix_glob.h>
#include <signal.h>
#include <stdio.h>
#include <stdlib.h>
#include <string.h>

static struct gix_glob_attribute_list list;   /* the lines of the file that give a pattern */
static struct gix_glob_attributes attributes; /* that list, and the macros */
static struct gix_glob_texts texts;           /* memory for a question: one for each line and macro, */
static struct gix_glob_marks marks;           /* and one for each macro */

static void stop(const char *what)
{
    perror(what);
    exit(1);
}

static void *cleared(size_t count, size_t size)
{
    void *memory = calloc(count, size);
    if (!memory)
        stop("attributes");
    return memory;
}

/* The bytes of a file, which stay: lines and macros lie in them. */
static char *read_whole(const char *file, size_t *len)
{
    char *bytes = NULL;
    FILE *to = open_memstream(&bytes, len), *from = fopen(file, "rb");

    if (!from)
        stop(file);
    for (int byte; to && (byte = getc(from)) != EOF;)
        putc(byte, to);
    if (ferror(from))
        stop(file);
    if (!to || ferror(to) || fclose(to))
        stop("attributes");
    fclose(from);
    return bytes;
}

static void load(const char *file)
{
    static const struct gix_glob_attribute_line no_line = GIX_GLOB_ATTRIBUTE_LINE_INIT;
    static const struct gix_glob_macro no_macro = GIX_GLOB_MACRO_INIT, binary = GIX_GLOB_MACRO_BINARY;
    size_t len = 0, most = 2, count = 0, macro_count = 1;
    const char *bytes = read_whole(file, &len);

    for (size_t i = 0; i < len; i++)
        most += bytes[i] == '\n';
    struct gix_glob_attribute_line *lines = (struct gix_glob_attribute_line *)cleared(most, sizeof *lines);
    struct gix_glob_macro *macros = (struct gix_glob_macro *)cleared(most + 1, sizeof *macros);
    struct gix_glob_memory heads = gix_glob_memory_of(cleared(len + 1, 1), len); /* for what is quoted in the file */
    struct gix_glob_lines left = gix_glob_lines_of(bytes, len);
    macros[0] = binary;
    for (;;) {
        lines[count] = no_line;
        macros[macro_count] = no_macro;
        const enum gix_glob_line kind = gix_glob_parse_attribute_line(&left, &heads, &lines[count], &macros[macro_count], true);
        if (kind == GIX_GLOB_LINE_END)
            break;
        if (kind == GIX_GLOB_LINE_FILE_TOO_LARGE) {
            fprintf(stderr, "attributes: %s has 100 MiB or more, and says nothing\n", file);
            break;
        }
        count += kind == GIX_GLOB_LINE_PATTERN;
        macro_count += kind == GIX_GLOB_LINE_MACRO;
        if (kind > GIX_GLOB_LINE_MACRO)
            fprintf(stderr, "attributes: line %zu of %s says nothing\n", left.number, file);
    }
    list = gix_glob_attribute_list_of(lines, count, gix_glob_string(""));
    attributes = gix_glob_attributes_of(&list, 1, macros, macro_count);
    texts = gix_glob_texts_of((struct gix_glob_text *)cleared(count + macro_count, sizeof(struct gix_glob_text)), count + macro_count);
    marks = gix_glob_marks_of((bool *)cleared(macro_count, sizeof(bool)), macro_count);
}

static void tell(const char *path, size_t len, const char *name)
{
    static const char *const states[] = { "unspecified", "set", "unset" };
    const bool is_dir = len > 0 && path[len - 1] == '/';
    const struct gix_glob_path asked = { gix_glob_text_of(path, len - is_dir), is_dir };
    struct gix_glob_state state = GIX_GLOB_STATE_INIT;

    if (!gix_glob_attribute_of(&attributes, &asked, gix_glob_string(name), texts, marks, false, &state))
        state.kind = GIX_GLOB_UNSPECIFIED; /* it is no path */
    printf("%.*s: %s: ", (int)len, path, name);
    if (state.kind == GIX_GLOB_VALUE)
        printf("%.*s\n", (int)state.value.len, (const char *)state.value.bytes);
    else
        puts(states[state.kind]);
}

int main(int argc, char **argv)
{
    if (argc < 3)
        return fprintf(stderr, "usage: %s FILE ATTR.. < PATHS\n", argv[0]), 2;
    signal(SIGPIPE, SIG_IGN); /* a reader that goes away is a write that fails */
    load(argv[1]);
    char *path = NULL;
    size_t room = 0;
    for (ssize_t len; (len = getline(&path, &room, stdin)) > 0;) {
        len -= path[len - 1] == '\n';
        for (int i = 2; i < argc; i++)
            tell(path, (size_t)len, argv[i]);
    }
    free(path);
    if (!feof(stdin) || fflush(stdout) || ferror(stdout))
        stop("attributes");
    return 0;
}
