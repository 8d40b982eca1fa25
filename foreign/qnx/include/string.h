/* The host's string.h, with QNX's stricmp and strnicmp, and with strlcpy and strlcat where the host has
 * none. */
#pragma GCC system_header
#include_next <string.h>
#ifndef BALSAEUCHRE_QNX_STRING_H
#define BALSAEUCHRE_QNX_STRING_H
#include <strings.h>
#define stricmp strcasecmp
#define strnicmp strncasecmp

#if !__GLIBC_PREREQ(2, 38)

/* Copies as much as fits into size bytes, with a closing 0. Returns the length of from. */
static inline size_t strlcpy(char *to, const char *from, size_t size) {
    size_t length = strlen(from), copied = length < size ? length : size - 1;
    if (!size) return length;
    memcpy(to, from, copied);
    to[copied] = 0;
    return length;
}

/* Appends in the same way. Returns the length that the whole text would have. */
static inline size_t strlcat(char *to, const char *from, size_t size) {
    const char *end = (const char *)memchr(to, 0, size);
    size_t used = end ? (size_t)(end - to) : size;
    return used + strlcpy(to + used, from, size - used);
}

#endif
#endif
