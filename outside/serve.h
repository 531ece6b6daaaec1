/* Makes the call that a request of so many bytes asks for: how many bytes the reply has, and where they stand until the next request. */
#include <stddef.h>
#include <stdint.h>

size_t serve(const uint8_t *asked, size_t size, const uint8_t **said);
