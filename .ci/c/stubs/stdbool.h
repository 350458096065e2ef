/* What gix_glob.h takes of stdbool.h. */
#pragma once
#define bool _Bool
#define true 1
#define false 0
