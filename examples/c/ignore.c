/* Which line of which ignore file decides about a path in a work tree: ./ignore sensitive|fold ROOT FILE.. < PATHS
 *
 * It answers as `globline ignore` does, but asks about the folders above a path first: `ignored L:N` or `kept L:N` with the place
 * of the file and the number of the line, `none` where no line decides, `!` for what is no path. A path that ends in a slash is a
 * directory's. A FILE that is missing or a folder is passed over. ROOT and FILE are compared as they are written.
 *
 * The status is 0 where each path was answered, 1 where something can't be read or written, and 2 for wrong words.
 *
 * Build it by `examples/c/install PREFIX` and `cc ignore.c $(pkg-config --cflags --libs gix_glob)`. */
#include <errno.h>
#include <gix_glob.h>
#include <signal.h>
#include <stdio.h>
#include <stdlib.h>
#include <string.h>

static struct gix_glob_list *lists; /* one for each file */
static size_t **numbers, files;     /* for each list the number of each pattern's line, and how many lists there are */

/* The folder of a file below ROOT, with its slash. */
static struct gix_glob_text base_of(const char *file, const char *root)
{
    const char *slash = strrchr(file, '/');
    const size_t len = strlen(root), skipped = len + (len > 0 && root[len - 1] != '/'), end = slash ? (size_t)(slash - file) + 1 : 0;
    const bool is_below = strcmp(root, "-") && skipped < end && !strncmp(file, root, len) && (skipped == len || file[len] == '/');
    return is_below ? gix_glob_text_of(file + skipped, end - skipped) : gix_glob_string("");
}

static void stop(const char *what)
{
    perror(what);
    exit(1);
}

static void *grown(void *memory, size_t count, size_t size)
{
    if (!(memory = realloc(memory, count * size)))
        stop("ignore");
    return memory;
}

/* The bytes of a file, which stay: the texts of the patterns lie in them. NULL where it is missing or a folder. */
static char *read_whole(const char *file, size_t *len)
{
    char *bytes = NULL;
    FILE *to = open_memstream(&bytes, len), *from = fopen(file, "rb");

    for (int byte; to && from && (byte = getc(from)) != EOF;)
        putc(byte, to);
    const bool is_read = from && !ferror(from);
    if (!is_read && errno != ENOENT && errno != EISDIR && errno != ENOTDIR)
        stop(file);
    if (!to || ferror(to) || fclose(to))
        stop("ignore");
    if (from)
        fclose(from);
    if (is_read)
        return bytes;
    free(bytes);
    return NULL;
}

static void load(const char *file, const char *root)
{
    static const struct gix_glob_pattern blank = GIX_GLOB_PATTERN_INIT;
    struct gix_glob_pattern *patterns = NULL;
    size_t len = 0, count = 0, *lines = NULL;
    const char *bytes = read_whole(file, &len);

    if (!bytes)
        return;
    struct gix_glob_lines left = gix_glob_lines_of(bytes, len);
    for (enum gix_glob_line line = GIX_GLOB_LINE_NOTHING; line != GIX_GLOB_LINE_END; count += line == GIX_GLOB_LINE_PATTERN) {
        patterns = (struct gix_glob_pattern *)grown(patterns, count + 1, sizeof *patterns);
        lines = (size_t *)grown(lines, count + 1, sizeof *lines);
        patterns[count] = blank;
        line = gix_glob_parse_ignore_line(&left, &patterns[count]);
        lines[count] = left.number;
    }
    lists[files] = gix_glob_list_of(patterns, count, base_of(file, root));
    numbers[files++] = lines;
}

static bool is_plain(const char *path, size_t len)
{
    for (size_t i = 0; i < len; i++)
        if (path[i] == '/' && (i == 0 || path[i - 1] == '/'))
            return false;
    return len > 0;
}

int main(int argc, char **argv)
{
    const bool fold = argc > 3 && !strcmp(argv[1], "fold");
    if (argc < 4 || (!fold && strcmp(argv[1], "sensitive")))
        return fprintf(stderr, "usage: %s sensitive|fold ROOT FILE.. < PATHS\n", argv[0]), 2;
    signal(SIGPIPE, SIG_IGN); /* a reader that goes away is a write that fails */
    lists = (struct gix_glob_list *)grown(NULL, (size_t)argc, sizeof *lists);
    numbers = (size_t **)grown(NULL, (size_t)argc, sizeof *numbers);
    for (int i = 3; i < argc; i++)
        load(argv[i], argv[2]);
    char *path = NULL;
    size_t room = 0;
    for (ssize_t len; (len = getline(&path, &room, stdin)) > 0;) {
        len -= path[len - 1] == '\n';
        const bool is_dir = len > 0 && path[len - 1] == '/';
        struct gix_glob_decision by = GIX_GLOB_DECISION_INIT;
        if (!is_plain(path, (size_t)len))
            puts("!");
        else if (!gix_glob_decide_in_tree(gix_glob_lists_of(lists, files), gix_glob_text_of(path, (size_t)(len - is_dir)), is_dir, fold, &by))
            puts("none");
        else
            printf("%s %zu:%zu\n", gix_glob_is_negative(&lists[by.list].patterns[by.pattern]) ? "kept" : "ignored", by.list + 1,
                   numbers[by.list][by.pattern]);
    }
    free(path);
    if (!feof(stdin) || fflush(stdout) || ferror(stdout))
        stop("ignore");
    return 0;
}
