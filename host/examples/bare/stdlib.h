/* What the examples need of C's own header. */
#ifndef STDLIB_H
#define STDLIB_H

#include <stddef.h>

void *malloc(size_t count);
void free(void *memory);
void exit(int status);

#endif
