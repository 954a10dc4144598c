// What the kit's libos_c.a has for x86-64, as far as the programs call it: the arguments and errno. tests/arm64.sh compares both.
#include <errno.h>
#include <string.h>
#include <sys/types.h>

static size_t count;
static char **words;

// glibc calls this before `main`, with its arguments.
static void keep(int argc, char **argv) {
    count = (size_t)argc;
    words = argv;
}
__attribute__((section(".init_array"), used)) static void (*const kept)(int, char **) = keep;

size_t rattle_arg_count(void) { return count; }

// Copies an argument, or as much of it as there is room for. Returns its length, -1 if there is none with this number, or -2 if it is longer
// than the room.
ssize_t rattle_arg(size_t number, char *to, size_t room) {
    if (number >= count) return -1;
    size_t length = strlen(words[number]);
    memcpy(to, words[number], length < room ? length : room);
    return length <= room ? (ssize_t)length : -2;
}

int rattle_errno(void) { return errno; }

void rattle_set_errno(int error) { errno = error; }
