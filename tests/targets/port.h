/* What the digest program needs of a machine: it has no C library. */
#include <stdint.h>

/* Reads the cases: as many bytes as there are, up to `count`. */
uint32_t port_read(uint8_t *to, uint32_t count);

/* Appends to the answers. */
void port_write(const uint8_t *from, uint32_t count);

/* The program. Not 0 where the cases are not whole. */
int digest(void);
