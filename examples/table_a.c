/* Table A of docs/SOURCES.md on the heartbeat machine, with fuel 100, N 3 and tau 2. */
#include <inttypes.h>
#include <stdio.h>
#include "mondupil.h"

int main(void) {
    const uint32_t table[] = {1, 0, 7, 6, 0, 5, 6, 6, 0, 3, 4, 0, 3, 0, 0, 0, 4, 0, 0, 1, 1, 0, 0, 0, 5, 0, 0, 1, 0, 0, 0};
    static uint64_t frames[256 * 32];
    uint64_t none[1] = {0}, t[MONDUPIL_WORDS];
    if (mondupil_run(MONDUPIL_HEARTBEAT, table, 31, none, 0, 100, 3, 2, frames, 256 * 32, t, MONDUPIL_WORDS) != 0) {
        fprintf(stderr, "no such machine, or no room for an answer\n");
        return 1;
    }
    if (t[MONDUPIL_KIND] != MONDUPIL_VALUE) {
        fprintf(stderr, "%s %" PRIu64 " function %" PRIu64 " node %" PRIu64 "\n", t[MONDUPIL_KIND] == MONDUPIL_STOP ? "stop" : "refused",
                t[MONDUPIL_TOLD], t[MONDUPIL_FUNCTION], t[MONDUPIL_NODE]);
        return 1;
    }
    printf("value %" PRIu64 " work %" PRIu64 " span %" PRIu64 " forks %" PRIu64 " deep %" PRIu64 "\n",
           t[MONDUPIL_TOLD], t[MONDUPIL_WORK], t[MONDUPIL_SPAN], t[MONDUPIL_FORKS], t[MONDUPIL_DEEPEST]);
    return 0;
}
