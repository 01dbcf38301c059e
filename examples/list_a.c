/* Run A of document 01, listed from C. */
#include <stdio.h>

#include "pollenloom.h"

int main(void)
{
    static const uint8_t thread[] = {0, 1, 2}, kind[] = {1, 1, 2};
    static const int32_t sample[] = {100, 0, 0};
    static const uint8_t schedule[] = {0, 0, 1, 1, 1, 1, 2, 2, 2, 0, 2, 2, 0};
    static uint8_t text[POLLENLOOM_LISTING_ROOM];

    pollenloom_text_answer listed = pollenloom_list(
        3, 2, thread, 3, kind, 3, sample, 3, schedule, sizeof schedule, text, sizeof text);
    if (listed.refusal != 0) {
        printf("refused\t%zu\t%zu\n", listed.refusal, listed.detail);
        return 1;
    }
    return fwrite(text, 1, listed.bytes, stdout) == listed.bytes ? 0 : 1;
}
