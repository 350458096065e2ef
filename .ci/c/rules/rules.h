/* What the checks of the handle of gix_glob_rules.h share. Each file beside this one has one subject. */
#ifndef RULES_H
#define RULES_H

#include <gix_glob.h>

/* Tells what isn't so of which row, counted from 0. */
void check(bool is_so, const char *asked, size_t row);

/* Memory that is counted, and refused where its turn comes. */
struct counted {
    size_t bytes, calls, refused;
};

void *counting(void *of, void *memory, size_t old_size, size_t size);

/* The subjects. */
void names_of_files(void);
void steps(void);

#endif
