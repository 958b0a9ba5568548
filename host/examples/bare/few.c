/* The few functions of C's library that the library and the examples call. */
#include "stdio.h"
#include "stdlib.h"
#include <stdarg.h>
#include <stdint.h>

void host_write(const char *text);
void host_exit(int status);

/* What the library needs: a program that has C's own library has these. */
void *memcpy(void *to, const void *from, size_t count);
void *memmove(void *to, const void *from, size_t count);
void *memset(void *to, int value, size_t count);

void *memcpy(void *to, const void *from, size_t count) {
    unsigned char *t = (unsigned char *)to;
    const unsigned char *f = (const unsigned char *)from;
    while (count-- > 0) *t++ = *f++;
    return to;
}

void *memmove(void *to, const void *from, size_t count) {
    unsigned char *t = (unsigned char *)to;
    const unsigned char *f = (const unsigned char *)from;
    if ((uintptr_t)to <= (uintptr_t)from) return memcpy(to, from, count);
    while (count-- > 0) t[count] = f[count];
    return to;
}

void *memset(void *to, int value, size_t count) {
    unsigned char *t = (unsigned char *)to;
    while (count-- > 0) *t++ = (unsigned char)value;
    return to;
}

/* What the examples need: memory that is never given back, and a printf of %u and %s. */
void *malloc(size_t count) {
    static uint64_t heap[1024];
    static size_t used;
    size_t words = (count + 7) / 8;
    if (words > 1024 - used) return NULL;
    used += words;
    return &heap[used - words];
}

void free(void *memory) { (void)memory; }

void exit(int status) {
    for (;;) host_exit(status);
}

static void number(unsigned value) {
    char text[11], *at = text + 10;
    *at = 0;
    do *--at = (char)('0' + value % 10);
    while ((value /= 10) != 0);
    host_write(at);
}

static void write(const char *format, va_list rest) {
    char one[2] = {0, 0};
    for (; *format != 0; format++) {
        one[0] = *format;
        if (*format != '%') host_write(one);
        else if (*++format == 'u') number(va_arg(rest, unsigned));
        else host_write(va_arg(rest, const char *));
    }
}

int printf(const char *format, ...) {
    va_list rest;
    va_start(rest, format);
    write(format, rest);
    va_end(rest);
    return 0;
}

int fprintf(FILE *to, const char *format, ...) {
    va_list rest;
    (void)to;
    va_start(rest, format);
    write(format, rest);
    va_end(rest);
    return 0;
}
