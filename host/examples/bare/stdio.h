/* What the examples need of C's own header. */
#ifndef STDIO_H
#define STDIO_H

#include <stddef.h>

typedef int FILE;
#define stderr ((FILE *)0)
int printf(const char *format, ...);
int fprintf(FILE *to, const char *format, ...);

#endif
