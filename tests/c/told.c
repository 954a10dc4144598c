/* The library returns the header's version, names and sizes. A text ends with a 0 if there is room
 * for both, otherwise nothing is written. It exits with 9 if this isn't so. */
#include <fintaqush.h>
#if FQ_VERSION_NUMBER < 20000
#error "a version before 2.0"
#endif
#include <stdio.h>
#include <stdlib.h>
#include <string.h>

static void want(bool holds, const char *what) {
    if (holds) return;
    fprintf(stderr, "told: %s\n", what);
    exit(9);
}

static size_t version(uint32_t none, char *to, size_t room) { return (void)none, fq_version(to, room); }

static void tells(size_t tell(uint32_t, char *, size_t), uint32_t number, const char *wanted) {
    const size_t length = strlen(wanted);
    char text[64];
    for (size_t room = 0; room <= sizeof text; room++) {
        memset(text, 'x', sizeof text);
        want(tell(number, text, room) == length, wanted);
        const size_t written = room > length ? length + 1 : 0;
        want(memcmp(text, wanted, written) == 0, wanted);
        for (size_t i = written; i < sizeof text; i++) want(text[i] == 'x', wanted);
    }
}

/* Each status has its own message, which fits FQ_MESSAGE_ROOM; the message of an unknown number is "?". */
static void says(uint32_t status, bool is_one) {
    static char said[300][FQ_MESSAGE_ROOM];
    want(fq_status_message(status, said[status], FQ_MESSAGE_ROOM) < FQ_MESSAGE_ROOM, "room for a message");
    want((strcmp(said[status], "?") != 0) == is_one, "what a status says");
    for (uint32_t i = 0; is_one && i < status; i++) want(strcmp(said[i], said[status]) != 0, "a message of its own");
}

int main(void) {
    want(FQ_VERSION_MAJOR * 10000 + FQ_VERSION_MINOR * 100 + FQ_VERSION_PATCH == FQ_VERSION_NUMBER, "the version's number");
    char version_text[16];
    snprintf(version_text, sizeof version_text, "%d.%d.%d", FQ_VERSION_MAJOR, FQ_VERSION_MINOR, FQ_VERSION_PATCH);
    want(strcmp(version_text, FQ_VERSION) == 0, "the version in numbers");
    want(fq_version_number() == FQ_VERSION_NUMBER, "the library's number");
    const size_t sizes[] = {sizeof(struct fq_handle), sizeof(struct fq_dql), sizeof(struct fq_napi),
        sizeof(struct fq_packet), sizeof(struct fq_tx_watchdog), sizeof(struct fq_todo)};
    const uint32_t count = sizeof sizes / sizeof sizes[0];
    want(count == FQ_STRUCT_TODO + 1 && sizeof(struct fq_tx_watchdog) == 16 && sizeof(struct fq_todo) == 40, "the structs");
    for (uint32_t i = 0; i < 99; i++) want(fq_struct_size(i) == (i < count ? sizes[i] : 0), "a struct's size");
    tells(version, 0, FQ_VERSION);
    for (uint32_t i = 0; i < 300; i++) {
        tells(fq_status_text, i, fq_status_name(i));
        tells(fq_fault_text, i, fq_fault_name(i));
    }
    tells(fq_status_text, UINT32_MAX, "?");
    for (uint32_t i = 0; i < 300; i++) says(i, strcmp(fq_status_name(i), "?") != 0);
    tells(fq_status_message, FQ_BAD_WEIGHT, "a weight is 1 to 64 packets");
    tells(fq_status_message, 99, "?");
    puts("it tells of itself what the header says");
    return 0;
}
