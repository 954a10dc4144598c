/* machine NAME=VALUE .. < ARRIVALS: what napi_machine does with them, by fq_machine: the report on standard output, or the message of
 * the error on standard error, and its status. Before that, each array that is too short has to stay unchanged, with the length that
 * the report needs returned, and no byte after a report may be written. It exits with 9 if one of this isn't so. */
#include <fintaqush.h>
#include <stdio.h>
#include <stdlib.h>
#include <string.h>

enum { MOST_BYTES = 1 << 26, GUARD = 0xA5 };
static uint8_t arrivals[MOST_BYTES];

static void want(bool holds, const char *what) {
    if (holds) return;
    fprintf(stderr, "machine: %s\n", what);
    exit(9);
}

static bool is_untouched(const uint8_t *bytes, size_t from, size_t to) {
    for (size_t i = from; i < to; i++)
        if (bytes[i] != GUARD) return false;
    return true;
}

/* Sets a setting by its name, as an option of napi_machine. */
static void set(struct fq_machine_settings *settings, const char *word) {
    static const char *const names[] = {
        /* scripts/options.py: begin */
        "processors", "queues", "ring", "socket", "backlog", "budget", "weight", "window", "time-limit", "rx-nsecs",
        "rx-frames", "defer-hard-irqs", "gro-flush-timeout", "threaded", "apart", "app-wake", "interrupt", "poll",
        "packet", "use", "wake", "heedless", "rx-gap", "timer", "timer-wake", "latched", "gro-batch", "take", "early",
        "poll-wake", "arm",
        /* scripts/options.py: end */
    };
    const size_t length = strcspn(word, "=");
    for (size_t i = 0; i < sizeof names / sizeof *names; i++)
        if (strlen(names[i]) == length && !strncmp(word, names[i], length)) {
            (&settings->processors)[i] = (uint32_t)strtoul(word + length + 1, NULL, 10);
            return;
        }
    want(false, word);
}

/* Prints an error as napi_machine does, and of a setting its number. */
static int tell(uint32_t said, const struct fq_machine_ran *ran) {
    want(ran->length == 0 && (said == FQ_BAD_SETTING) == (ran->setting != 0) && (said == FQ_BAD_ARRIVALS) == (ran->fault != 0), "what an error says");
    if (said == FQ_BAD_ARRIVALS) return fprintf(stderr, "%s\n", ran->message), 2;
    fprintf(stderr, "%s %u\n", fq_status_name(said), ran->setting);
    return 1;
}

int main(int count, char **words) {
    struct fq_machine_settings settings;
    struct fq_machine_ran ran = {.length = 1, .row = 2, .fault = 3, .setting = 4};
    uint8_t none = GUARD;
    want(fq_machine_default(&settings) == FQ_OK, "the default settings");
    for (int i = 1; i < count; i++) set(&settings, words[i]);
    const size_t len = fread(arrivals, 1, sizeof arrivals, stdin);
    uint32_t said = fq_machine(&settings, arrivals, len, &none, 0, &ran);
    want(none == GUARD && said != FQ_OK, "an array of no bytes");
    if (said != FQ_NO_ROOM) return tell(said, &ran);
    const size_t length = ran.length;
    want(ran.fault == 0 && ran.row == 0 && ran.setting == 0 && ran.message[0] == 0, "a report has a fault");
    uint8_t *report = malloc(length + 1);
    want(report != NULL, "no memory");
    memset(report, GUARD, length + 1);
    want(fq_machine(&settings, arrivals, len, report, length - 1, &ran) == FQ_NO_ROOM, "a byte too short");
    want(ran.length == length && is_untouched(report, 0, length + 1), "an array that is too short was written to");
    said = fq_machine(&settings, arrivals, len, report, length, &ran);
    want(said == FQ_OK && ran.length == length && is_untouched(report, length, length + 1), "the room that was told isn't enough");
    want(fwrite(report, 1, length, stdout) == length && fflush(stdout) == 0, "the report can't be written");
    free(report);
    return 0;
}
