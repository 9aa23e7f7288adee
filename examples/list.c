/* list: reads a job file on standard input and prints its listing, by the one call zone_list. */
#include "zone.h"

#include <inttypes.h>
#include <stdio.h>

int main(void)
{
    static uint8_t job[ZONE_JOB_LENGTH + 1], text[ZONE_TEXT_LENGTH];
    int64_t told[1];
    size_t length = fread(job, 1, sizeof job, stdin);
    int64_t answer = zone_list(job, length, text, sizeof text, told, 1);
    if (answer != ZONE_ACCEPTED) {
        printf("refused %" PRId64 "\n", answer);
        return 1;
    }
    return fwrite(text, 1, (size_t)told[0], stdout) == (size_t)told[0] ? 0 : 1;
}
