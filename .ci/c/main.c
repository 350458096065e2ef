/* Asks all checks. Status 0 where all is as it should be. */
#include "checks.h"

int printf(const char *format, ...);

static int failed;

void check(bool is_so, const char *asked, size_t row)
{
    if (is_so)
        return;
    failed++;
    printf("exports: %s: not so in row %zu\n", asked, row);
}

int main(void)
{
    matching();
    patterns();
    prepared();
    trees();
    ignore_lines();
    attribute_lines();
    attribute_states();
    memory();
    return failed > 0;
}
