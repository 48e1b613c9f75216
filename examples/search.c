/* Searches the program file on standard input for a run that ends as it asks. */
#include <stdio.h>

#include "blyskota.h"

static uint8_t table[16 << 20];

int main(void)
{
    uint8_t file[1024], trace[BLYSKOTA_TRACE], answer[BLYSKOTA_SEARCH_WITHIN_ANSWER];
    size_t length = fread(file, 1, sizeof file, stdin);

    blyskota_search_within(file, length, UINT64_MAX, trace, sizeof trace, table, sizeof table, answer, sizeof answer);
    switch (answer[0]) {
    case BLYSKOTA_ALLOWED:
        printf("allowed by a run of %d steps\n", answer[2]);
        return 0;
    case BLYSKOTA_FORBIDDEN:
        printf("forbidden\n");
        return 1;
    case BLYSKOTA_NOT_FINISHED:
        printf("not finished\n");
        return 2;
    default:
        printf("refused with %d at byte %d\n", answer[1], answer[4] + 256 * answer[5]);
        return 3;
    }
}
