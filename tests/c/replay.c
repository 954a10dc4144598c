/* replay BUDGET WEIGHT WINDOW < TRACE: what napi_serial does with it, by fq_replay: the report on standard output, or the
 * message of the error on standard error, and its status. With RESTARTS as a fourth number, what napi_series does with
 * --raise=RESTARTS --rows, by fq_raise: the trace with the runs that the kernel would add. Before that, each array that is too short has to stay unchanged,
 * with the length that the report needs returned, and no byte after a report may be written. It exits with 9 if one of this
 * isn't so. */
#include <fintaqush.h>
#include <stdio.h>
#include <stdlib.h>
#include <string.h>

enum { MOST_BYTES = 1 << 27, GUARD = 0xA5 };

static void want(bool holds, const char *what) {
    if (holds) return;
    fprintf(stderr, "replay: %s\n", what);
    exit(9);
}

static bool is_untouched(const uint8_t *bytes, size_t from, size_t to) {
    for (size_t i = from; i < to; i++)
        if (bytes[i] != GUARD) return false;
    return true;
}

static uint8_t trace[MOST_BYTES];
static size_t len;
static struct fq_settings settings = FQ_DEFAULT_SETTINGS;
static bool raises;
static uint32_t restarts;

static uint32_t play(uint8_t *out, size_t room, struct fq_replayed *replayed) {
    return raises ? fq_raise(&settings, restarts, trace, len, out, room, replayed) : fq_replay(&settings, trace, len, out, room, replayed);
}

/* Prints an error as napi_serial does. */
static int tell(uint32_t said, const struct fq_replayed *replayed) {
    if (said != FQ_BAD_TRACE) {
        fprintf(stderr, "%s\n", fq_status_name(said));
        return 1;
    }
    fprintf(stderr, "trace fault %u %s row %u\n", replayed->fault, fq_fault_name(replayed->fault), replayed->row);
    return 2;
}

int main(int count, char **words) {
    want(count == 4 || count == 5, "three or four numbers");
    settings.budget = (uint32_t)strtoul(words[1], NULL, 10), settings.weight = (uint32_t)strtoul(words[2], NULL, 10);
    settings.window = (uint32_t)strtoul(words[3], NULL, 10);
    raises = count == 5;
    if (raises) restarts = (uint32_t)strtoul(words[4], NULL, 10);
    len = fread(trace, 1, sizeof trace, stdin);
    struct fq_replayed replayed = {0, 1, 2, 3};
    uint8_t none = GUARD;
    uint32_t said = play(&none, 0, &replayed);
    want(none == GUARD, "an array of no bytes was written to");
    want(said != FQ_OK, "a report of no bytes");
    if (said != FQ_NO_ROOM) {
        want(replayed.length == 0, "no report has a length");
        return tell(said, &replayed);
    }
    const size_t length = replayed.length;
    want(replayed.fault == 0 && replayed.row == 0, "a report has a fault");
    uint8_t *report = malloc(length + 1);
    want(report != NULL, "no memory");
    memset(report, GUARD, length + 1);
    want(play(report, length - 1, &replayed) == FQ_NO_ROOM, "a byte too short");
    want(replayed.length == length && is_untouched(report, 0, length + 1), "an array that is too short was written to");
    said = play(report, length, &replayed);
    want(said == FQ_OK && replayed.length == length, "the room that was told isn't enough");
    want(is_untouched(report, length, length + 1), "a byte behind the report was written");
    want(fwrite(report, 1, length, stdout) == length && fflush(stdout) == 0, "the report can't be written");
    free(report);
    return 0;
}
