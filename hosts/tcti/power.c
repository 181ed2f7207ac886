/* tpmsim-power DIR [--cut] [--keep N]: power-cycles the device that is kept in a folder. With
 * --cut, a damaged journal is first cut off at the damage, and a journal of another version, whose
 * commands this library answers otherwise, is first replaced with its head. With --keep N, the last
 * N journals stay in the folder. */
#include "past.h"
#include "words.h"
#include <stdio.h>
#include <string.h>

static const char HELP[] =
    "Usage: tpmsim-power DIR [--cut] [--keep N]\n"
    "Power-cycle the device in the folder DIR, for all programs that use it.\n"
    "\n"
    "  --cut     If the journal is damaged, drop its end from the damage on. If another version\n"
    "            wrote it, drop all commands since the last power cycle or checkpoint.\n"
    "  --keep N  Keep the last N finished journals as DIR/journal.1 and so on [0 to 99, default: 1]\n"
    "  --help    Print this help\n"
    "\n"
    "The status is 0 if the power was cycled, 2 if the words are wrong, and 3 if the folder has no\n"
    "device, or if its journal cannot be read or written.\n";

static void tell(const char *sentence) { fprintf(stderr, "tpmsim-power: %s\n", sentence); }

/* Reports what is wrong with a word of the command line, and returns false. */
static bool refuse_word(const char *word, const char *said) {
    struct reason reason;
    refuse(&reason, word, NULL, said, 0);
    tell(reason.text);
    return false;
}

/* Reads the number of --keep, which is NULL if it is missing. */
static bool read_keep(struct kept_options *options, const char *number) {
    options->keeps_by_default = false;
    return (number && words_number(number, strlen(number), PAST_MOST, &options->keep)) ||
           refuse_word("--keep", "needs a number, 0 to 99; see tpmsim-power --help");
}

/* Reads the arguments after the program's name. */
static bool read_words(struct kept_options *options, char **words) {
    for (; *words; words++) {
        if (strcmp(*words, "--cut") == 0) {
            options->cuts = options->takes_head = true;
        } else if (strcmp(*words, "--keep") == 0) {
            if (!read_keep(options, words[1])) return false;
            words++;
        } else if (**words == '-') {
            return refuse_word(*words, "is no option; see tpmsim-power --help");
        } else if (options->folder) {
            return refuse_word(*words, "is a second folder; name one");
        } else if (**words) {
            options->folder = *words;
        }
    }
    return options->folder ||
           refuse_word("DIR", "is missing: the folder of a device; see tpmsim-power --help");
}

int main(int count, char **words) {
    struct reason reason;
    struct kept_options options = {.force = TPMSIM_FORCE_POWER,
                                   .keep = WORDS_KEEP,
                                   .keeps_by_default = true,
                                   .is_there = true,
                                   .tell = tell};
    if (count == 2 && strcmp(words[1], "--help") == 0) {
        fputs(HELP, stdout);
        return 0;
    }
    if (!read_words(&options, words + (count > 0))) return 2;
    struct kept *kept = kept_open(&options, &reason);
    bool is_done = kept && kept_power(kept, &reason);
    kept_close(kept);
    if (!is_done) tell(reason.text);
    return is_done ? 0 : 3;
}
