/* What gix_glob.h takes of stddef.h, for a machine without the C library's headers. */
#pragma once
typedef __SIZE_TYPE__ size_t;
#define NULL ((void *)0)
#define offsetof(type, member) __builtin_offsetof(type, member)
