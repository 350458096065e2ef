/* What Git's wildmatch.c uses of Git's own headers, whose guards are closed here. */
#define CACHE_H
#define GIT_COMPAT_UTIL_H
#include <string.h>

enum { SPACE = 1, DIGIT = 2, LETTER = 4, HEX = 8, MARK = 16, CONTROL = 32, SPECIAL = 64 };

static const unsigned char kinds[256] = {
    [0 ... 8] = CONTROL, ['\t'] = CONTROL | SPACE, ['\n'] = CONTROL | SPACE, [11 ... 12] = CONTROL, ['\r'] = CONTROL | SPACE,
    [14 ... 31] = CONTROL, [' '] = SPACE, ['!' ... ')'] = MARK, ['*'] = MARK | SPECIAL, ['+' ... '/'] = MARK,
    ['0' ... '9'] = DIGIT | HEX, [':' ... '>'] = MARK, ['?'] = MARK | SPECIAL, ['@'] = MARK, ['A' ... 'F'] = LETTER | HEX,
    ['G' ... 'Z'] = LETTER, ['[' ... '\\'] = MARK | SPECIAL, [']' ... '`'] = MARK, ['a' ... 'f'] = LETTER | HEX,
    ['g' ... 'z'] = LETTER, ['{' ... '~'] = MARK, [127] = CONTROL,
};

#define is_of(byte, kind) ((kinds[(unsigned char)(byte)] & (kind)) != 0)
#define isspace(byte) is_of(byte, SPACE)
#define isdigit(byte) is_of(byte, DIGIT)
#define isalpha(byte) is_of(byte, LETTER)
#define isalnum(byte) is_of(byte, LETTER | DIGIT)
#define isxdigit(byte) is_of(byte, HEX)
#define ispunct(byte) is_of(byte, MARK)
#define iscntrl(byte) is_of(byte, CONTROL)
#define isprint(byte) ((byte) >= ' ' && (byte) <= '~')
#define islower(byte) has_case(byte, 0x20)
#define isupper(byte) has_case(byte, 0)
#define tolower(byte) in_case(byte, 0x20)
#define toupper(byte) in_case(byte, 0)
#define is_glob_special(byte) is_of(byte, SPECIAL)

static inline int has_case(int byte, int bit)
{
    return isalpha(byte) ? (byte & 0x20) == bit : 0;
}

static inline int in_case(int byte, int bit)
{
    return isalpha(byte) ? (byte & ~0x20) | bit : byte;
}
