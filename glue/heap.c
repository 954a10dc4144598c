// What the kit's liblibc_c.a has for x86-64: the heap that Rattle code calls, over the C library's. Block sizes and alignments are in
// bytes; the C library aligns each block to 16, and no caller asks for more. tests/arm64.sh compares both.
#include <stdbool.h>
#include <stddef.h>
#include <stdlib.h>

// Whether there is memory, and where; if there is none, the pointer leads to `nothing`, which no code reads.
struct tried {
    bool is_there;
    void *at;
};

static char nothing;

static struct tried told(void *at) { return (struct tried){at != NULL, at ? at : &nothing}; }

// A block of no bytes is asked for as one of `align` bytes, because malloc(0) may return a null pointer.
struct tried rattle_alloc(size_t size, size_t align) { return told(malloc(size ? size : align)); }

// Makes the block one of `size` bytes. Its first `kept` bytes stay, as realloc keeps them anyway. If there is no memory, it is as it was.
struct tried rattle_realloc(void *block, size_t kept, size_t size, size_t align) {
    (void)kept;
    return told(realloc(block, size ? size : align));
}

void rattle_dealloc(void *block) { free(block); }
