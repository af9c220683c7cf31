// How many bytes the program holds, as what finds faulty addresses (AddressSanitizer) counts them.
#include <stddef.h>
#include <stdint.h>

size_t __sanitizer_get_current_allocated_bytes(void);

uint64_t held_bytes(void) { return __sanitizer_get_current_allocated_bytes(); }
