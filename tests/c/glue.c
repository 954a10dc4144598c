/* What Rattle code calls in C, of glue/ or of the kit: prints the answer to each call, so that both can be compared: the arguments, errno,
 * and the heap with the sizes that it asks for, also when it is refused memory. To be linked with --wrap for malloc and realloc. */
#include <errno.h>
#include <stdbool.h>
#include <stdint.h>
#include <stdio.h>
#include <stdlib.h>
#include <string.h>
#include <sys/types.h>

struct tried {
    bool is_there;
    unsigned char *at;
};

struct tried rattle_alloc(size_t size, size_t align);
struct tried rattle_realloc(void *block, size_t kept, size_t size, size_t align);
void rattle_dealloc(void *block);
size_t rattle_arg_count(void);
ssize_t rattle_arg(size_t number, char *to, size_t room);
int rattle_errno(void);
void rattle_set_errno(int error);
void *__real_malloc(size_t size);
void *__real_realloc(void *old, size_t size);
void *__wrap_malloc(size_t size);
void *__wrap_realloc(void *old, size_t size);

static bool refuses;

void *__wrap_malloc(size_t size) {
    printf("  malloc of %zu\n", size);
    return refuses ? NULL : __real_malloc(size);
}

void *__wrap_realloc(void *old, size_t size) {
    printf("  realloc of %zu\n", size);
    return refuses ? NULL : __real_realloc(old, size);
}

/* Where there is no memory, the pointer still leads to a byte. */
static struct tried told(struct tried made, size_t size) {
    printf("%s, aligned %d, holds", made.is_there ? "there" : "refused", made.is_there ? (uintptr_t)made.at % 16 == 0 : made.at != NULL);
    for (size_t i = 0; i < size; i++) printf(" %d", made.at[i]);
    printf("\n");
    return made;
}

static void grow(struct tried old, size_t kept, size_t size, size_t align) {
    refuses = true;
    told(rattle_realloc(old.at, kept, size, align), 1);
    told(old, kept);
    refuses = false;
    rattle_dealloc(told(rattle_realloc(old.at, kept, size, align), kept < size ? kept : size).at);
}

static void copy(size_t number, size_t room) {
    char to[40] = "----------------------------------";
    ssize_t length = rattle_arg(number, to, room);
    printf("argument %zu in %zu: %zd, %s\n", number, room, length, to);
}

int main(int argc, char **argv) {
    printf("%zu arguments of %d\n", rattle_arg_count(), argc);
    for (size_t number = 1; number <= (size_t)argc + 1; number++) {
        size_t length = number < (size_t)argc ? strlen(argv[number]) : 0;
        for (size_t room = 0; room <= length + 2; room++) copy(number, room);
    }
    for (int error = -1; error < 140; error++) {
        rattle_set_errno(error);
        printf("errno %d %d\n", errno, rattle_errno());
    }
    errno = ERANGE;
    printf("errno %d\n", rattle_errno() == ERANGE);
    for (size_t align = 1; align <= 16; align *= 2) {
        for (size_t size = 0; size <= 4 * align; size += align) {
            struct tried made = rattle_alloc(size, align);
            if (size > 0) memset(made.at, 7, size);
            grow(told(made, size), size, 3 * align, align);
            grow(told(rattle_alloc(8, 8), 0), 0, 0, align);
        }
        refuses = true;
        told(rattle_alloc(align, align), 1);
        refuses = false;
    }
    told(rattle_alloc(SIZE_MAX / 4, 16), 1);
    return 0;
}
