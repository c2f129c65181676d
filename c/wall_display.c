/* The wall display of a job: after every step of its log, all of its lines in one call. Three actions: print 1, print 2 (needs label 1), void both. It prints what
 * rust/examples/wall_display.rs prints. */
#include "wyndhopper.h"
#include <stdio.h>
#include <string.h>

static const struct {
    const char *says, *test;
} lines[] = {
    {"label 1 is out", "f00"},
    {"label 2 is out", "f01"},
    {"label 2 comes next", "&f00!f01"},
    {"label 1 was printed, and nothing was forced since", "<-;a00*n1"},
    {"the last step was a void", "<r021"},
    /* a slip of the pen: there are two labels, so that this line alone is refused */
    {"label 3 is out", "f02"},
};

enum { LINES = sizeof lines / sizeof lines[0] };

static void refresh(const struct wyh_job *job, const char *tests) {
    uint8_t out[LINES];
    size_t count, k;
    uint8_t refused = wyh_job_board(job, (const uint8_t *)tests, strlen(tests), job->log_len, job->log_len, out, sizeof out, &count);
    printf("after %lu steps\n", (unsigned long)job->log_len);
    if (refused) printf("  no display: %s\n", wyh_refusal_sentence(refused));
    for (k = 0; k < count; k++) {
        uint8_t why = wyh_board_refusal(out[k]);
        if (why) printf("  %s: ? (%s)\n", lines[k].says, wyh_refusal_sentence(why));
        else printf("  %s: %s\n", lines[k].says, out[k] == WYH_BOARD_YES ? "yes" : "no");
    }
}

int main(void) {
    const uint32_t masks[] = {WYH_PLAIN_ROW(0, 0, 1, 0), WYH_PLAIN_ROW(1, 0, 2, 0), WYH_PLAIN_ROW(0, 0, 0, 3)};
    const uint8_t log[4] = {0, 1, 2, 1};
    struct wyh_job job = WYH_JOB_EMPTY;
    char tests[256] = "";
    size_t k;
    job.fluents = 2;
    job.actions = 3;
    job.masks = masks;
    job.masks_len = 3 * WYH_ROW_MASKS;
    job.log = log;
    /* The tests stay the same from refresh to refresh: each line's, and an LF behind it. */
    for (k = 0; k < LINES; k++) {
        strcat(tests, lines[k].test);
        strcat(tests, "\n");
    }
    for (; job.log_len <= 4; job.log_len++) refresh(&job, tests);
    return 0;
}
