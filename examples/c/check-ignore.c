/* Which of its arguments a work tree ignores, as `git check-ignore --no-index` prints them:
 * ./check-ignore PATH.., at the top of the work tree, from where each PATH is told. The status is 0
 * where a PATH is ignored, 1 where none is, and 2 where memory or a file is refused.
 *
 * Build: `examples/c/install PREFIX`, `cc check-ignore.c $(pkg-config --cflags --libs gix_glob)` */
#include <gix_glob_rules.h>
#include <sys/stat.h>

static struct gix_glob_rules *rules;

/* Adds the file of a folder, which is so much of a path. The file may be missing. */
static void add(const char *file, const char *path, size_t len)
{
    if (!rules || !gix_glob_rules_read_file(rules, gix_glob_text_of(path, len), file)) {
        perror(file);
        exit(2);
    }
}

static bool is_ignored(const char *path, size_t len, bool is_dir)
{
    const struct gix_glob_text text = gix_glob_text_of(path, len);
    const enum gix_glob_verdict verdict = gix_glob_rules_decide(rules, text, is_dir, NULL);
    if (verdict == GIX_GLOB_NO_MEMORY)
        exit(2);
    return verdict == GIX_GLOB_IGNORED;
}

/* Adds the .gitignore of each folder above a path that is above none of the paths before it; but
 * none below a folder that is ignored. */
static void add_folders(const char *path, char **paths)
{
    for (const char *slash = strchr(path, '/'); slash; slash = strchr(slash + 1, '/')) {
        const size_t len = (size_t)(slash - path);
        char file[5000], **first = paths;
        if (is_ignored(path, len, true))
            return;
        while (strncmp(*first, path, len + 1))
            first++;
        snprintf(file, sizeof file, "%.*s/.gitignore", (int)len, path);
        if (*first == path)
            add(file, path, len);
    }
}

int main(int argc, char **argv)
{
    int status = 1;
    rules = gix_glob_rules_new(NULL);
    add(".git/info/exclude", "", 0);
    add(".gitignore", "", 0);
    for (char **path = argv + 1; path < argv + argc; path++) {
        struct stat found;
        const bool is_dir = !lstat(*path, &found) && S_ISDIR(found.st_mode);
        add_folders(*path, argv + 1);
        if (is_ignored(*path, strlen(*path), is_dir))
            status = puts(*path) < 0 ? 2 : 0;
    }
    gix_glob_rules_free(rules);
    return status;
}
