/* The archives without a C library, as firmware may link them: `memset` is all that they need from
 * outside. This links if that is so; it is not run. */
#include "../include/mesh.h"

typedef void function(void);

/* Named, so that each archive is linked whole. */
function *const calls[] = {
    (function *)mesh_route, (function *)mesh_number, (function *)mesh_check,
    (function *)mesh_reset, (function *)mesh_offer,  (function *)mesh_move,
    (function *)mesh_read,  (function *)mesh_write,  (function *)mesh_report,
};

/* Through a volatile, or the compiler makes this loop a call of memset. */
void *memset(void *bytes, int byte, size_t count)
{
    volatile uint8_t *at = bytes;
    while (count-- > 0)
        *at++ = (uint8_t)byte;
    return bytes;
}

void _start(void)
{
    for (;;) {
    }
}
