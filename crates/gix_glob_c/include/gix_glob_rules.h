/* The rules of ignore files, kept and asked: five calls over gix_glob.h, for who allocates.
 *
 *     struct gix_glob_rules *rules = gix_glob_rules_new(NULL);
 *     gix_glob_rules_add_file(rules, gix_glob_string(""), gix_glob_string("*.o\n"));
 *     gix_glob_rules_decide(rules, gix_glob_string("src/a.o"), false, NULL) == GIX_GLOB_IGNORED
 *     gix_glob_rules_free(rules);
 *
 * All of this is C that a compiler puts into the program, and needs C99 or C++11: the library itself allocates nothing. What is here keeps
 * memory, reads each file once, prepares its list, and picks the files of the folders on the way to a path. gix_glob_decide_in_tree, which
 * is proved, says which pattern of their lists decides; that the others say nothing is a law of docs/PROOFS.md.
 *
 * A folder and a path are written alike: below the root, with single slashes between their names. `./` at the front and slashes at the end
 * are passed over. What lies outside of the root, or has another name that is empty, `.` or `..`, is refused as a folder, and isn't decided
 * about as a path.
 *
 * Adding a file takes time for its lines and for each name of its folder, which is searched among its neighbours: the logarithm of their
 * number. A question takes that for each name of the path, and what gix_glob_decide_in_tree takes for the files on the way. Of other folders
 * neither takes any, whatever their names are.
 *
 * Threads may ask the same rules at once, while no thread adds a file or frees them, and as long as the allocator serves several threads.
 */
#ifndef GIX_GLOB_RULES_H
#define GIX_GLOB_RULES_H

#include "gix_glob.h"
#include <errno.h>
#include <stdio.h>
#include <stdlib.h>
#include <string.h>

#ifdef __cplusplus
extern "C" {
#endif

/* Where memory comes from: `resize` is called as realloc, with what memory had before. A size of 0 gives it back. Other memory is aligned to
 * 8 bytes; NULL where there is none. */
struct gix_glob_allocator {
    void *(*resize)(void *of, void *memory, size_t old_size, size_t size);
    void *of;
};

/* How rules are made. Zeros are the usual way: struct gix_glob_rules_options options = GIX_GLOB_RULES_OPTIONS_INIT; */
struct gix_glob_rules_options {
    struct gix_glob_text root;           /* the top of the work tree, as it stands in front of each path and each file's folder: `/` of those
                                            that begin with a slash; empty where they begin at the top */
    bool as_crate;                       /* whether lines are read as the Rust crate gix-glob reads them, and not as Git does */
    bool fold;                           /* whether the case of ASCII letters doesn't matter */
    struct gix_glob_allocator allocator; /* by `resize` NULL, realloc and free */
};

#define GIX_GLOB_RULES_OPTIONS_INIT { GIX_GLOB_TEXT(), false, false, { NULL, NULL } }

/* What the rules say of a path. */
enum gix_glob_verdict {
    GIX_GLOB_UNDECIDED = 0, /* no line decides: the path isn't ignored */
    GIX_GLOB_IGNORED = 1,   /* a line decides, and ignores the path */
    GIX_GLOB_KEPT = 2,      /* a line with a '!' decides: the path isn't ignored */
    GIX_GLOB_NO_MEMORY = 3  /* memory was refused: nothing is known of the path */
};

/* The line that decides. */
struct gix_glob_rule {
    size_t file;                            /* the number of files that were added before its own */
    size_t line;                            /* its number in the file, from 1 */
    const struct gix_glob_pattern *pattern; /* its pattern, which stays until the rules are freed; NULL where no line decides */
};

#define GIX_GLOB_RULE_INIT { GIX_GLOB_NONE, 0, NULL }

/* Up to so many files on the way to a path are asked without memory. */
#define GIX_GLOB_RULES_FEW 16u

/* Rules with their files. Its fields are no caller's. */
struct gix_glob_rules;

/* ---- what stands behind it: no caller reads it */

struct gix_glob_rules_file {
    uint8_t *bytes; /* the folder of the file, its bytes, and one more */
    size_t size;
    struct gix_glob_pattern *patterns;
    size_t *numbers; /* of the patterns' lines */
    size_t count, room, number_room;
    uint64_t *block; /* what is prepared */
    size_t block_size;
    struct gix_glob_list list;
    size_t place;                             /* how many files were added before it */
    const struct gix_glob_rules_file *before; /* the latest of these with patterns and the same folder; or NULL */
};

/* A folder on the way to files with patterns. The folders in one folder are an AA tree by their names, so that names of no choice make a
 * search long. */
struct gix_glob_rules_folder {
    struct gix_glob_text name;
    size_t above;              /* the folder that it lies in */
    size_t below;              /* the root of the tree of the folders in it; 0 where there are none, as in the next two */
    size_t left, right, level; /* its own place in a tree */
    const struct gix_glob_rules_file *last; /* its file that was added last */
};

struct gix_glob_rules {
    struct gix_glob_rules_options options;
    uint8_t *root; /* the bytes of the options' root: with a slash at its end, if there are any */
    struct gix_glob_rules_file **files;
    size_t file_count, file_room;
    struct gix_glob_rules_folder *folders; /* the first is the top, and no folder of a tree, where its level is 0 */
    size_t folder_count, folder_room;
};

static inline void *gix_glob_rules_resize(const struct gix_glob_rules *rules, void *memory, size_t old_size, size_t size)
{
    const struct gix_glob_allocator *by = &rules->options.allocator;
    if (by->resize)
        return size || memory ? by->resize(by->of, memory, old_size, size) : NULL;
    if (size)
        return realloc(memory, size);
    free(memory);
    return NULL;
}

/* Elements with room for more than so many: at least twice as many as before, where that changes. NULL, and all as it was, where memory was
 * refused. */
static inline void *gix_glob_rules_grown(const struct gix_glob_rules *rules, void *elements, size_t count, size_t *room, size_t size)
{
    size_t more = *room ? *room : 4;
    if (count < *room)
        return elements;
    while (more <= count && more <= SIZE_MAX / 4 / size)
        more *= 2;
    if (more <= count || !(elements = gix_glob_rules_resize(rules, elements, *room * size, more * size)))
        return NULL;
    *room = more;
    return elements;
}

static inline uint8_t gix_glob_rules_byte(const struct gix_glob_rules *rules, uint8_t byte)
{
    return rules->options.fold && byte >= 'A' && byte <= 'Z' ? (uint8_t)(byte + 32) : byte;
}

/* How so many bytes, and at least one, stand in order: 0 where they are the same. */
static inline int gix_glob_rules_order(const struct gix_glob_rules *rules, const uint8_t *left, const uint8_t *right, size_t len)
{
    int order = 0;
    if (!rules->options.fold)
        return memcmp(left, right, len);
    for (size_t i = 0; !order && i < len; i++)
        order = gix_glob_rules_byte(rules, left[i]) - gix_glob_rules_byte(rules, right[i]);
    return order;
}

/* The same of names: by their lengths first. */
static inline int gix_glob_rules_name_order(const struct gix_glob_rules *rules, struct gix_glob_text left, struct gix_glob_text right)
{
    if (left.len != right.len)
        return left.len < right.len ? -1 : 1;
    return gix_glob_rules_order(rules, left.bytes, right.bytes, left.len);
}

/* Where the name ends that begins at a place of a path: at the next slash, or at the path's end. */
static inline size_t gix_glob_rules_end(struct gix_glob_text path, size_t start)
{
    const void *slash = memchr(path.bytes + start, '/', path.len - start);
    return slash ? (size_t)((const uint8_t *)slash - path.bytes) : path.len;
}

/* The text from a place on, without slashes at its front. */
static inline struct gix_glob_text gix_glob_rules_from(struct gix_glob_text text, size_t start)
{
    while (start < text.len && text.bytes[start] == '/')
        start++;
    return gix_glob_text_of(text.bytes + start, text.len - start);
}

/* The text without each `./` at its front. */
static inline struct gix_glob_text gix_glob_rules_entered(struct gix_glob_text text)
{
    while (text.len && text.bytes[0] == '.' && (text.len == 1 || text.bytes[1] == '/'))
        text = gix_glob_rules_from(text, 1);
    return text;
}

/* Takes off a folder or a path its root, `./` at the front, and slashes at the end. Answers whether it lies below the root, as far as its front
 * tells, or is the root, of which nothing is left. */
static inline bool gix_glob_rules_below(const struct gix_glob_rules *rules, struct gix_glob_text *text)
{
    const struct gix_glob_text root = rules->options.root;
    struct gix_glob_text rest = gix_glob_rules_entered(gix_glob_text_of(text->bytes, text->len));
    if (!root.len && rest.len && rest.bytes[0] == '/')
        return false;
    if (root.len) {
        /* (the root itself may lack the slash at its end) */
        const size_t len = rest.len < root.len ? root.len - 1 : root.len;
        if (!rest.len || rest.len < len || (len && gix_glob_rules_order(rules, root.bytes, rest.bytes, len)))
            return false;
        rest = gix_glob_rules_entered(gix_glob_rules_from(rest, len));
    }
    while (rest.len && rest.bytes[rest.len - 1] == '/')
        rest.len--;
    *text = rest;
    return true;
}

/* Whether it is a name that begins at a place of a path and ends at another one: it isn't empty, `.` or `..`. */
static inline bool gix_glob_rules_is_name(struct gix_glob_text path, size_t start, size_t end)
{
    const uint8_t *name = path.bytes + start;
    return end > start && (name[0] != '.' || (end - start > 1 && (name[1] != '.' || end - start > 2)));
}

/* The folder of a name in another folder; 0 where no file lies there or below. */
static inline size_t gix_glob_rules_folder_in(const struct gix_glob_rules *rules, size_t above, struct gix_glob_text name)
{
    size_t at = rules->folders[above].below;
    for (int order; at && (order = gix_glob_rules_name_order(rules, name, rules->folders[at].name));)
        at = order < 0 ? rules->folders[at].left : rules->folders[at].right;
    return at;
}

/* Puts a folder into a tree, and answers its root. No folder of a tree is as deep as twice the logarithm of their number. */
static inline size_t gix_glob_rules_insert(const struct gix_glob_rules *rules, size_t root, size_t folder)
{
    struct gix_glob_rules_folder *all = rules->folders;
    size_t *side, next;
    if (!root)
        return folder;
    side = gix_glob_rules_name_order(rules, all[folder].name, all[root].name) < 0 ? &all[root].left : &all[root].right;
    *side = gix_glob_rules_insert(rules, *side, folder);
    if (all[next = all[root].left].level == all[root].level) {
        all[root].left = all[next].right;
        all[next].right = root;
        root = next;
    }
    if (all[all[next = all[root].right].right].level == all[root].level) {
        all[root].right = all[next].left;
        all[next].left = root;
        all[next].level++;
        root = next;
    }
    return root;
}

/* Puts a file that was read into its folder, for which there is room. */
static inline void gix_glob_rules_put(struct gix_glob_rules *rules, struct gix_glob_rules_file *file)
{
    const struct gix_glob_text base = file->list.base;
    size_t at = 0;
    for (size_t start = 0, end; start < base.len; start = end + 1) {
        struct gix_glob_rules_folder *folder = &rules->folders[rules->folder_count];
        size_t below;
        end = gix_glob_rules_end(base, start);
        memset(folder, 0, sizeof *folder);
        folder->name = gix_glob_text_of(base.bytes + start, end - start);
        folder->above = at;
        folder->level = 1;
        if (!(below = gix_glob_rules_folder_in(rules, at, folder->name))) {
            below = rules->folder_count++;
            rules->folders[at].below = gix_glob_rules_insert(rules, rules->folders[at].below, below);
        }
        at = below;
    }
    file->before = rules->folders[at].last;
    rules->folders[at].last = file;
}

static inline void gix_glob_rules_free_file(const struct gix_glob_rules *rules, struct gix_glob_rules_file *file)
{
    gix_glob_rules_resize(rules, file->bytes, file->size, 0);
    gix_glob_rules_resize(rules, file->patterns, file->room * sizeof *file->patterns, 0);
    gix_glob_rules_resize(rules, file->numbers, file->number_room * sizeof *file->numbers, 0);
    gix_glob_rules_resize(rules, file->block, file->block_size, 0);
    gix_glob_rules_resize(rules, file, sizeof *file, 0);
}

/* Reads all lines of a file, and prepares them. */
static inline bool gix_glob_rules_read_lines(const struct gix_glob_rules *rules, struct gix_glob_rules_file *file, size_t base_len)
{
    struct gix_glob_lines lines = gix_glob_lines_of(file->bytes + base_len, file->size - 1 - base_len);
    const struct gix_glob_pattern blank = GIX_GLOB_PATTERN_INIT;
    for (enum gix_glob_line line = GIX_GLOB_LINE_NOTHING; line != GIX_GLOB_LINE_END; file->count += line == GIX_GLOB_LINE_PATTERN) {
        void *patterns = gix_glob_rules_grown(rules, file->patterns, file->count, &file->room, sizeof *file->patterns);
        void *numbers = gix_glob_rules_grown(rules, file->numbers, file->count, &file->number_room, sizeof *file->numbers);
        file->patterns = patterns ? (struct gix_glob_pattern *)patterns : file->patterns;
        file->numbers = numbers ? (size_t *)numbers : file->numbers;
        if (!patterns || !numbers)
            return false;
        file->patterns[file->count] = blank;
        line = rules->options.as_crate ? gix_glob_parse_ignore_line(&lines, &file->patterns[file->count])
                                       : gix_glob_parse_ignore_line_as_git(&lines, &file->patterns[file->count]);
        file->numbers[file->count] = lines.number;
    }
    if (!file->count)
        return true;
    file->list = gix_glob_list_of(file->patterns, file->count, gix_glob_text_of(file->bytes, base_len));
    file->block_size = gix_glob_prepared_size(file->count);
    if (file->block_size == GIX_GLOB_NONE || !(file->block = (uint64_t *)gix_glob_rules_resize(rules, NULL, 0, file->block_size))) {
        file->block_size = 0;
        return false;
    }
    memset(file->block, 0, file->block_size);
    return gix_glob_prepare_list(&file->list, file->block, file->block_size);
}

/* A file of a folder that is clean. NULL where memory was refused. */
static inline struct gix_glob_rules_file *gix_glob_rules_file_of(const struct gix_glob_rules *rules, struct gix_glob_text folder,
                                                                 struct gix_glob_text bytes)
{
    const size_t base_len = folder.len + (folder.len > 0);
    struct gix_glob_rules_file *file = (struct gix_glob_rules_file *)gix_glob_rules_resize(rules, NULL, 0, sizeof *file);
    if (!file)
        return NULL;
    memset(file, 0, sizeof *file);
    file->size = base_len + bytes.len + 1;
    file->place = rules->file_count;
    if ((file->bytes = (uint8_t *)gix_glob_rules_resize(rules, NULL, 0, file->size))) {
        memcpy(file->bytes, folder.bytes, folder.len);
        file->bytes[folder.len] = '/';
        memcpy(file->bytes + base_len, bytes.bytes, bytes.len);
        file->bytes[file->size - 1] = 0;
        if (gix_glob_rules_read_lines(rules, file, base_len))
            return file;
    }
    gix_glob_rules_free_file(rules, file);
    return NULL;
}

/* Makes room for one more file, and for so many folders. */
static inline bool gix_glob_rules_room(struct gix_glob_rules *rules, size_t names)
{
    const size_t most = rules->folder_count + names;
    void *files = gix_glob_rules_grown(rules, rules->files, rules->file_count, &rules->file_room, sizeof *rules->files), *folders;
    rules->files = files ? (struct gix_glob_rules_file **)files : rules->files;
    folders = gix_glob_rules_grown(rules, rules->folders, most, &rules->folder_room, sizeof *rules->folders);
    rules->folders = folders ? (struct gix_glob_rules_folder *)folders : rules->folders;
    return files && folders;
}

/* The files on the way to what lies in a folder, from the one that was added last on, as many as there is room for; and how many there are. */
static inline size_t gix_glob_rules_way(const struct gix_glob_rules *rules, size_t folder, const struct gix_glob_rules_file **files, size_t room)
{
    size_t count = 0;
    for (bool is_top = false; !is_top; folder = rules->folders[folder].above) {
        const struct gix_glob_rules_file *file = rules->folders[folder].last;
        for (; file; file = file->before, count++) {
            size_t at = count;
            if (count >= room)
                continue;
            /* (one of a folder above was added before most) */
            for (; at > 0 && files[at - 1]->place < file->place; at--)
                files[at] = files[at - 1];
            files[at] = file;
        }
        is_top = !folder;
    }
    return count;
}

/* The deepest folder on the way to a path that has files or lies above some. False where a name of the path is none. */
static inline bool gix_glob_rules_folder_of(const struct gix_glob_rules *rules, struct gix_glob_text path, size_t *folder)
{
    size_t below = 1;
    *folder = 0;
    for (size_t start = 0, end; start < path.len; start = end + 1) {
        end = gix_glob_rules_end(path, start);
        if (!gix_glob_rules_is_name(path, start, end))
            return false;
        if (below && end < path.len)
            below = gix_glob_rules_folder_in(rules, *folder, gix_glob_text_of(path.bytes + start, end - start));
        *folder = below && end < path.len ? below : *folder;
    }
    return true;
}

/* Asks some files, which stand from the last one on, by room for the list of each. */
static inline enum gix_glob_verdict gix_glob_rules_ask(const struct gix_glob_rules *rules, const struct gix_glob_rules_file *const *files,
                                                       struct gix_glob_list *lists, size_t count, const struct gix_glob_path *path,
                                                       struct gix_glob_rule *rule)
{
    struct gix_glob_decision by = GIX_GLOB_DECISION_INIT;
    const struct gix_glob_rules_file *file;
    for (size_t i = 0; i < count; i++)
        lists[i] = files[count - 1 - i]->list;
    if (!gix_glob_decide_in_tree(gix_glob_lists_of(lists, count), path->text, path->is_dir, rules->options.fold, &by))
        return GIX_GLOB_UNDECIDED;
    file = files[count - 1 - by.list];
    rule->file = file->place;
    rule->line = file->numbers[by.pattern];
    rule->pattern = &file->patterns[by.pattern];
    return gix_glob_is_negative(rule->pattern) ? GIX_GLOB_KEPT : GIX_GLOB_IGNORED;
}

/* Keeps the root of options, with a slash at its end. */
static inline bool gix_glob_rules_keep_root(struct gix_glob_rules *rules, struct gix_glob_text root)
{
    root = gix_glob_rules_entered(gix_glob_text_of(root.bytes, root.len));
    rules->options.root = gix_glob_text_of(NULL, 0);
    if (!root.len)
        return true;
    while (root.len && root.bytes[root.len - 1] == '/')
        root.len--;
    if (!(rules->root = (uint8_t *)gix_glob_rules_resize(rules, NULL, 0, root.len + 1)))
        return false;
    memcpy(rules->root, root.bytes, root.len);
    rules->root[root.len] = '/';
    rules->options.root = gix_glob_text_of(rules->root, root.len + 1);
    return true;
}

/* ---- the calls */

/* Gives back all memory of rules, which may be NULL. */
static inline void gix_glob_rules_free(struct gix_glob_rules *rules)
{
    struct gix_glob_rules last;
    if (!rules)
        return;
    for (size_t i = 0; i < rules->file_count; i++)
        gix_glob_rules_free_file(rules, rules->files[i]);
    gix_glob_rules_resize(rules, rules->files, rules->file_room * sizeof *rules->files, 0);
    gix_glob_rules_resize(rules, rules->folders, rules->folder_room * sizeof *rules->folders, 0);
    gix_glob_rules_resize(rules, rules->root, rules->options.root.len, 0);
    last = *rules;
    gix_glob_rules_resize(&last, rules, sizeof *rules, 0);
}

/* Makes rules without a file.
 *   options  how; NULL for GIX_GLOB_RULES_OPTIONS_INIT
 * Answers NULL where memory was refused. */
static inline struct gix_glob_rules *gix_glob_rules_new(const struct gix_glob_rules_options *options)
{
    static const struct gix_glob_rules_options usual = GIX_GLOB_RULES_OPTIONS_INIT;
    struct gix_glob_rules seed, *rules;
    memset(&seed, 0, sizeof seed);
    seed.options = options ? *options : usual;
    if (!(rules = (struct gix_glob_rules *)gix_glob_rules_resize(&seed, NULL, 0, sizeof seed)))
        return NULL;
    *rules = seed;
    if (gix_glob_rules_keep_root(rules, seed.options.root) && gix_glob_rules_room(rules, 0)) {
        memset(&rules->folders[0], 0, sizeof rules->folders[0]);
        rules->folder_count = 1;
        return rules;
    }
    gix_glob_rules_free(rules);
    return NULL;
}

/* Adds an ignore file. A later file comes after an earlier one, so files of excludes come first, then that of the top, and that of a folder
 * before those of the folders in it.
 *   folder  the folder of the file; for the top, which is that of files of excludes too, the root itself
 *   bytes   the bytes of the file, of which a copy is kept
 * Answers whether it was added. Else all is as it was, and errno tells the reason: EINVAL where the folder isn't below the root, ENOMEM where
 * memory was refused. */
static inline bool gix_glob_rules_add_file(struct gix_glob_rules *rules, struct gix_glob_text folder, struct gix_glob_text bytes)
{
    struct gix_glob_rules_file *file;
    size_t names = 0;
    bool is_clean = gix_glob_rules_below(rules, &folder);
    for (size_t start = 0, end; is_clean && start < folder.len; start = end + 1, names++) {
        end = gix_glob_rules_end(folder, start);
        is_clean = gix_glob_rules_is_name(folder, start, end);
    }
    if (!is_clean) {
        errno = EINVAL;
        return false;
    }
    bytes = gix_glob_text_of(bytes.bytes, bytes.len);
    if (folder.len > SIZE_MAX / 4 || bytes.len > SIZE_MAX / 4 || !gix_glob_rules_room(rules, names) ||
        !(file = gix_glob_rules_file_of(rules, folder, bytes))) {
        errno = ENOMEM;
        return false;
    }
    if (file->count)
        gix_glob_rules_put(rules, file);
    rules->files[rules->file_count++] = file;
    return true;
}

/* The same of a file by its name. A file that is missing, or is a directory, is added as one without lines.
 *   name  the file, as fopen takes it: of a FIFO the end is waited for
 * Answers whether it was added. Where it can't be read it isn't, all is as it was, and errno tells the reason. */
static inline bool gix_glob_rules_read_file(struct gix_glob_rules *rules, struct gix_glob_text folder, const char *name)
{
    FILE *file = fopen(name, "rb");
    bool is_read = !file && (errno == ENOENT || errno == ENOTDIR), is_added;
    uint8_t *bytes = NULL, *grown;
    size_t len = 0, room = 0, count = 1;
    int reason;
    while (file && count && (grown = (uint8_t *)gix_glob_rules_grown(rules, bytes, len, &room, 1))) {
        bytes = grown;
        count = fread(bytes + len, 1, room - len, file);
        len += count;
    }
    if (file && count)
        errno = ENOMEM;
    if (file)
        is_read = !count && (!ferror(file) || errno == EISDIR);
    is_added = is_read && gix_glob_rules_add_file(rules, folder, gix_glob_text_of(bytes, len));
    reason = errno;
    gix_glob_rules_resize(rules, bytes, room, 0);
    if (file)
        fclose(file);
    errno = reason;
    return is_added;
}

/* What the rules say of a path: as gix_glob_decide_in_tree answers for the lists of all files.
 *   path    what is asked about. That of the root isn't decided about
 *   is_dir  whether it is a directory's, as it is in any case with a slash at its end
 *   rule    receives the line that decides; may be NULL
 * Memory is taken where more than GIX_GLOB_RULES_FEW files with patterns lie on the way, and given back. */
static inline enum gix_glob_verdict gix_glob_rules_decide(const struct gix_glob_rules *rules, struct gix_glob_text path, bool is_dir,
                                                          struct gix_glob_rule *rule)
{
    struct gix_glob_list few_lists[GIX_GLOB_RULES_FEW], *lists = few_lists;
    const struct gix_glob_rules_file *few_files[GIX_GLOB_RULES_FEW], **files = few_files;
    struct gix_glob_rule unasked = GIX_GLOB_RULE_INIT;
    struct gix_glob_path asked;
    enum gix_glob_verdict verdict = GIX_GLOB_NO_MEMORY;
    size_t folder, count;
    rule = rule ? rule : &unasked;
    rule->pattern = NULL;
    asked.is_dir = is_dir || (path.len && path.bytes[path.len - 1] == '/');
    if (!gix_glob_rules_below(rules, &path) || !gix_glob_rules_folder_of(rules, path, &folder))
        return GIX_GLOB_UNDECIDED;
    asked.text = path;
    if ((count = gix_glob_rules_way(rules, folder, files, GIX_GLOB_RULES_FEW)) <= GIX_GLOB_RULES_FEW)
        return gix_glob_rules_ask(rules, files, lists, count, &asked, rule);
    lists = (struct gix_glob_list *)gix_glob_rules_resize(rules, NULL, 0, count * sizeof *lists);
    files = (const struct gix_glob_rules_file **)gix_glob_rules_resize(rules, NULL, 0, count * sizeof *files);
    if (lists && files) {
        gix_glob_rules_way(rules, folder, files, count);
        verdict = gix_glob_rules_ask(rules, files, lists, count, &asked, rule);
    }
    gix_glob_rules_resize(rules, lists, count * sizeof *lists, 0);
    gix_glob_rules_resize(rules, files, count * sizeof *files, 0);
    return verdict;
}

/* The smallest case: what the bytes of one ignore file, at the top, say of a path. It reads them anew each time. */
static inline enum gix_glob_verdict gix_glob_is_ignored(struct gix_glob_text file, struct gix_glob_text path, bool is_dir)
{
    enum gix_glob_verdict verdict = GIX_GLOB_NO_MEMORY;
    struct gix_glob_rules *rules = gix_glob_rules_new(NULL);
    if (rules && gix_glob_rules_add_file(rules, gix_glob_text_of(NULL, 0), file))
        verdict = gix_glob_rules_decide(rules, path, is_dir, NULL);
    gix_glob_rules_free(rules);
    return verdict;
}

#ifdef __cplusplus
}
#endif

#endif
