/* The clocked tree. */
#include "clocked_tree.h"

uint32_t plain_clocked_cycle(clocked *m, uint32_t request, uint32_t rank, uint32_t tag, uint32_t length, strip *out) {
    strip x = {rank, tag, length};
    if (m->order == 2) return cycle(m, 2, request, x, out);
    if (m->order == 4) return cycle(m, 4, request, x, out);
    return cycle(m, 8, request, x, out);
}
