/* A scheduler's question in ten lines: is label 1 out, and what is left to print? */
#include "wyndhopper.h"
#include <stdio.h>

int main(void) {
    const uint32_t masks[] = {WYH_PLAIN_ROW(0, 0, 1, 0), WYH_PLAIN_ROW(1, 0, 2, 0)};
    const uint8_t log[1] = {0};
    struct wyh_job job = WYH_JOB_EMPTY;
    uint8_t refused, yes, left[WYH_FINISH_ROOM];
    size_t count;
    job.fluents = job.actions = 2, job.masks = masks, job.masks_len = 2 * WYH_ROW_MASKS, job.log = log, job.log_len = 1;
    refused = wyh_job_verdict(&job, (const uint8_t *)"f00", 3, 1, 1, &yes);
    printf("label 1 is out: refusal %d, yes %d\n", refused, yes);
    refused = wyh_job_finish(&job, (const uint8_t *)";a00a01", 7, 6, left, sizeof left, &count);
    printf("left to print: refusal %d, count %d, first %d\n", refused, (int)count, left[0]);
    return 0;
}
