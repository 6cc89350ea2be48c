/* heap.c: the memory of the library, from malloc, realloc and free. A program that has memory of its own defines these three functions
 * itself: the linker then takes its own. Blocks are aligned as malloc aligns them, to 16 bytes. */
#include <stdbool.h>
#include <stddef.h>
#include <stdlib.h>

struct framehop_block {
    bool is_given;
    void *at; /* never NULL */
};

struct framehop_block rattle_alloc(size_t size, size_t align);
struct framehop_block rattle_realloc(void *at, size_t kept, size_t size, size_t align);
void rattle_dealloc(void *at);

#ifdef FRAMEHOP_REFUSES
/* For tests: the request of this number from now on, and each after it, is refused; none if it is negative. */
long framehop_requests_left = -1;

static bool is_refused(void) {
    if (framehop_requests_left < 0) return false;
    if (framehop_requests_left == 0) return true;
    framehop_requests_left--;
    return false;
}
#else
static bool is_refused(void) { return false; }
#endif

static struct framehop_block block_at(void *at) {
    static long long nothing;
    struct framehop_block block;
    block.is_given = at != NULL;
    block.at = at ? at : &nothing;
    return block;
}

struct framehop_block rattle_alloc(size_t size, size_t align) {
    return block_at(is_refused() ? NULL : malloc(size ? size : align));
}

struct framehop_block rattle_realloc(void *at, size_t kept, size_t size, size_t align) {
    (void)kept;
    return block_at(is_refused() ? NULL : realloc(at, size ? size : align));
}

void rattle_dealloc(void *at) { free(at); }
