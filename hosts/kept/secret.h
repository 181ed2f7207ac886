/* Memory that may contain secrets of a device. */
#ifndef SECRET_H
#define SECRET_H
#include <stddef.h>

/* Clears the bytes of a block, and frees it. `block` may be NULL. */
void secret_free(void *block, size_t size);

#endif
