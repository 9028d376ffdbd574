#ifndef PLAIN_H
#define PLAIN_H

#include <stddef.h>
#include <stdint.h>

/* A test exchange by memset and memcpy. It is in its own file so that no compiler sees through the call. */
void plain_exchange(size_t unit, size_t sector, size_t sectors, uint8_t *slot0, uint8_t *slot1, uint8_t *scratch);

#endif
