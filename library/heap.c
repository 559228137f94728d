/* The heap of the library for a processor that the kit has no archive for: what its calls take of malloc, realloc and free. A request
 * that fails gives an address that nothing is read from or written to. */
#include <stdbool.h>
#include <stdlib.h>

typedef struct { bool ok; void *at; } tried;
static char nothing[16];
static tried tried_at(void *at) { return (tried){at != NULL, at ? at : nothing}; }
tried rattle_alloc(size_t n, size_t align) { return tried_at(malloc(n ? n : align)); }
tried rattle_realloc(void *at, size_t before, size_t n, size_t align) { (void)before; return tried_at(realloc(at, n ? n : align)); }
void rattle_dealloc(void *at) { free(at); }
