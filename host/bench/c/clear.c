/* What a clear is held to: zeros over the same bytes. */
#include "plain.h"

void plain_zeros(void *bytes, uint64_t count) { memset(bytes, 0, count); }
