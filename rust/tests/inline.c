/*
 * For tests/another_version.rs: the header's inline functions over the stub. Makes the call that is named on the
 * command line, over an empty memory, and prints the numbers of what it hands back.
 */
#include <inttypes.h>
#include <stdio.h>
#include <string.h>

#include "yasmurekh.h"

static const struct yasmurekh_memory memory = {{0, NULL, 0}, {0, NULL, 0}};
static const struct yasmurekh_directory directory = {YASMUREKH_MODE_OFF, 0};

static int show(struct yasmurekh_answer answer) {
    printf("%" PRIu64 " %" PRIu64 " %" PRIu64 " %" PRIu64 " %" PRIu64 "\n", answer.kind, answer.first, answer.second,
           answer.third, answer.stage);
    return 0;
}

/* Refusal, count, and the words of the pairs added up. */
static int show_report(struct yasmurekh_file_report report) {
    uint64_t sum = 0;
    unsigned k;

    for (k = 0; k < YASMUREKH_FILE_PAIRS; k++)
        sum += report.pairs[k].pending + report.pairs[k].enable;
    printf("%" PRIu64 " %" PRIu64 " %" PRIu64 "\n", report.refusal, report.count, sum);
    return 0;
}

int main(int count, char **words) {
    struct yasmurekh_device_request asked = {0, 0, 0, YASMUREKH_READ, 0, 4, 0};

    if (count == 2 && strcmp(words[1], "request") == 0)
        return show(yasmurekh_memory_request(&memory, &directory, &asked));
    if (count == 2 && strcmp(words[1], "take") == 0)
        return show(yasmurekh_memory_take(&memory, 0, 0));
    if (count == 2 && strcmp(words[1], "take_many") == 0)
        return show(yasmurekh_memory_take_many(&memory, 0, 0, 5));
    if (count == 2 && strcmp(words[1], "report") == 0)
        return show_report(yasmurekh_memory_report(&memory, 0));
    return 2;
}
