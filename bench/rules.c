/* Asks about paths from C, for rules.py to count: WHAT FOLDER ROUNDS, where FOLDER has the patterns and the paths that `lists.py --make` writes. */
#include <gix_glob_rules.h>
#include <stdio.h>

static struct gix_glob_text read_whole(const char *folder, const char *name)
{
    char *bytes = NULL, file[4096];
    size_t len = 0;
    FILE *to = open_memstream(&bytes, &len), *from;
    snprintf(file, sizeof file, "%s/%s", folder, name);
    if (!to || !(from = fopen(file, "rb")))
        exit(1);
    for (int byte; (byte = getc(from)) != EOF;)
        putc(byte, to);
    fclose(from);
    fclose(to);
    return gix_glob_text_of(bytes, len);
}

int main(int argc, char **argv)
{
    static struct gix_glob_text paths[1 << 17];
    if (argc != 4)
        return 2;
    const char what = argv[1][0];
    const struct gix_glob_text file = read_whole(argv[2], "patterns"), all = read_whole(argv[2], "paths");
    struct gix_glob_rules *rules = gix_glob_rules_new(NULL);
    size_t count = 0, yes = 0;
    if (!rules || !gix_glob_rules_add_file(rules, gix_glob_string(""), file))
        return 1;
    for (size_t at = 0, end; at < all.len; at = end + 1) {
        for (end = at; end < all.len && all.bytes[end] != '\n'; end++)
            ;
        paths[count++] = gix_glob_text_of(all.bytes + at, end - at);
    }
    const struct gix_glob_list *list = &rules->files[0]->list, in_turn = gix_glob_list_of(list->patterns, list->count, list->base);
    for (int round = atoi(argv[3]); round > 0; round--)
        for (size_t i = 0; i < count; i++) {
            struct gix_glob_decision by = GIX_GLOB_DECISION_INIT;
            if (what == 'l') /* the last match of the prepared list */
                yes += gix_glob_last_match(list, paths[i], false, false) != GIX_GLOB_NONE;
            else if (what == 'p') /* the decision in a tree, by the prepared list */
                yes += gix_glob_decide_in_tree(gix_glob_lists_of(list, 1), paths[i], false, false, &by);
            else if (what == 't') /* the same, each pattern in turn */
                yes += gix_glob_decide_in_tree(gix_glob_lists_of(&in_turn, 1), paths[i], false, false, &by);
            else if (what == 'r') /* the same by the rules */
                yes += gix_glob_rules_decide(rules, paths[i], false, NULL) != GIX_GLOB_UNDECIDED;
        }
    fprintf(stderr, "%zu say yes\n", yes);
    printf("%zu\n", count);
    return 0;
}
