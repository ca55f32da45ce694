// Calls of libc on strings and streams: what they read is noted before the call, what they wrote
// after it.
#include "runtime.h"
#include <errno.h>
#include <stdarg.h>
#include <stdio.h>
#include <stdlib.h>
#include <string.h>
#include <strings.h>
#include <wchar.h>

static int watched(void) {
    return on && !(own && own->busy);
}
#define REALS(f)                                                                                   \
    REAL(f);                                                                                       \
    if (!watched())                                                                                \
    return real_##f
static size_t length(const char *s) {
    const char *e = s;
    while (*e)
        e++;
    return e - s;
}
static size_t length_to(const char *s, size_t most) {
    size_t n = 0;
    while (n < most && s[n])
        n++;
    return n < most ? n + 1 : most;
}
// What of two strings a comparison looks at: up to the first difference or their end.
static size_t compared(const char *a, const char *b, size_t most) {
    size_t n = 0;
    while (n < most && a[n] == b[n] && a[n])
        n++;
    return n < most ? n + 1 : most;
}
#define READS(a, n) note_read(a, n, CALLER)
#define WRITES(a, n) note_write(a, n, CALLER)

API size_t strlen(const char *s) {
    size_t n = length(s);
    if (watched())
        READS(s, n + 1), note_done();
    return n;
}
API size_t strnlen(const char *s, size_t k) {
    size_t n = length_to(s, k);
    if (watched())
        READS(s, n), note_done();
    return n && !s[n - 1] ? n - 1 : n;
}
API int strcmp(const char *a, const char *b) {
    REALS(strcmp)(a, b);
    size_t n = compared(a, b, SIZE_MAX);
    READS(a, n), READS(b, n);
    int r = real_strcmp(a, b);
    note_done();
    return r;
}
API int strncmp(const char *a, const char *b, size_t k) {
    REALS(strncmp)(a, b, k);
    size_t n = compared(a, b, k);
    READS(a, n), READS(b, n);
    int r = real_strncmp(a, b, k);
    note_done();
    return r;
}
API int strcasecmp(const char *a, const char *b) {
    REALS(strcasecmp)(a, b);
    READS(a, length(a) + 1), READS(b, length(b) + 1);
    int r = real_strcasecmp(a, b);
    note_done();
    return r;
}
API int strncasecmp(const char *a, const char *b, size_t k) {
    REALS(strncasecmp)(a, b, k);
    READS(a, length_to(a, k)), READS(b, length_to(b, k));
    int r = real_strncasecmp(a, b, k);
    note_done();
    return r;
}
API int memcmp(const void *a, const void *b, size_t n) {
    REALS(memcmp)(a, b, n);
    READS(a, n), READS(b, n);
    int r = real_memcmp(a, b, n);
    note_done();
    return r;
}
API void *memchr(const void *s, int c, size_t n) {
    REALS(memchr)(s, c, n);
    void *r = real_memchr(s, c, n);
    READS(s, r ? (size_t)((char *)r - (char *)s) + 1 : n);
    note_done();
    return r;
}
#define FINDS(name, parameters, arguments)                                                         \
    API char *name parameters {                                                                    \
        REALS(name) arguments;                                                                     \
        READS(s, length(s) + 1);                                                                   \
        char *r = real_##name arguments;                                                           \
        note_done();                                                                               \
        return r;                                                                                  \
    }
FINDS(strchr, (const char *s, int c), (s, c))
FINDS(strrchr, (const char *s, int c), (s, c))
FINDS(strstr, (const char *s, const char *t), (s, t))
FINDS(strpbrk, (const char *s, const char *t), (s, t))
#define COPIES(name, to, target, reads)                                                            \
    API char *name(char *d, const char *s) {                                                       \
        REALS(name)(d, s);                                                                         \
        size_t n = length(s) + 1;                                                                  \
        READS(s, n);                                                                               \
        reads;                                                                                     \
        WRITES(target, n);                                                                         \
        char *r = real_##name(d, s);                                                               \
        note_done();                                                                               \
        return r;                                                                                  \
    }
COPIES(strcpy, d, d, (void)0)
COPIES(stpcpy, d, d, (void)0)
COPIES(strcat, d, d + length(d), READS(d, length(d) + 1))
API char *strncpy(char *d, const char *s, size_t n) {
    REALS(strncpy)(d, s, n);
    READS(s, length_to(s, n)), WRITES(d, n);
    char *r = real_strncpy(d, s, n);
    note_done();
    return r;
}
API char *strncat(char *d, const char *s, size_t n) {
    REALS(strncat)(d, s, n);
    size_t end = length(d), k = length_to(s, n);
    READS(d, end + 1), READS(s, k), WRITES(d + end, k + 1);
    char *r = real_strncat(d, s, n);
    note_done();
    return r;
}
API char *strdup(const char *s) {
    size_t n = length(s) + 1;
    if (watched())
        READS(s, n), note_done();
    char *r = malloc(n);
    if (!r)
        return 0;
    __builtin_memcpy(r, s, n);
    return r;
}
API char *strndup(const char *s, size_t most) {
    size_t n = length_to(s, most);
    if (watched())
        READS(s, n), note_done();
    char *r = malloc(n + 1);
    if (!r)
        return 0;
    __builtin_memcpy(r, s, n);
    r[n] = 0;
    return r;
}

// ---- prints into memory
static void printed(char *to, size_t most, int r, u64 code) {
    int e = errno;
    if (r >= 0 && most && watched())
        note_write(to, (size_t)r < most ? (size_t)r + 1 : most, code), note_done();
    errno = e;
}
API int vsnprintf(char *to, size_t n, const char *format, va_list l) {
    REAL(vsnprintf);
    int r = real_vsnprintf(to, n, format, l);
    printed(to, n, r, CALLER);
    return r;
}
API int vsprintf(char *to, const char *format, va_list l) {
    REAL(vsprintf);
    int r = real_vsprintf(to, format, l);
    printed(to, SIZE_MAX, r, CALLER);
    return r;
}
API int snprintf(char *to, size_t n, const char *format, ...) {
    REAL(vsnprintf);
    va_list l;
    va_start(l, format);
    int r = real_vsnprintf(to, n, format, l);
    va_end(l);
    printed(to, n, r, CALLER);
    return r;
}
API int sprintf(char *to, const char *format, ...) {
    REAL(vsprintf);
    va_list l;
    va_start(l, format);
    int r = real_vsprintf(to, format, l);
    va_end(l);
    printed(to, SIZE_MAX, r, CALLER);
    return r;
}

// ---- streams
API size_t fread(void *b, size_t size, size_t n, FILE *f) {
    REAL(fread);
    note_done();
    size_t r = real_fread(b, size, n, f);
    if (watched())
        WRITES(b, r * size), note_done();
    return r;
}
API size_t fwrite(const void *b, size_t size, size_t n, FILE *f) {
    REAL(fwrite);
    if (watched())
        READS(b, size * n);
    size_t r = real_fwrite(b, size, n, f);
    note_done();
    return r;
}
API char *fgets(char *b, int n, FILE *f) {
    REAL(fgets);
    note_done();
    char *r = real_fgets(b, n, f);
    if (r && watched())
        WRITES(b, length_to(b, n)), note_done();
    return r;
}
API int fputs(const char *s, FILE *f) {
    REAL(fputs);
    if (watched())
        READS(s, length(s) + 1);
    int r = real_fputs(s, f);
    note_done();
    return r;
}
