/* The cost graph of table A of docs/SOURCES.md on the heartbeat machine, with fuel 100, N 3 and tau 2: its words, and the work and the
 * span read off them. Where the buffer is too short, the answer is stop 25, and twice as many words are lent. */
#include <inttypes.h>
#include <stdio.h>
#include "mondupil.h"

enum { PERIOD = 3, TAU = 2, FEWEST_LENT = 8, MOST_LENT = 64 };

struct cost {
    uint64_t work, span;
};

/* the cost of the words from `at` up to `end`: a stretch is 0, transitions; a fork is 1, two lengths, and two graphs of these lengths */
static struct cost cost_of(const uint32_t *at, const uint32_t *end) {
    struct cost sum = {0, 0};
    while (at < end) {
        if (at[0] == 0) {
            sum.work += at[1];
            sum.span += at[1];
            at += 2;
        } else {
            const uint32_t *left = at + 3, *right = left + at[1], *after = right + at[2];
            struct cost l = cost_of(left, right), r = cost_of(right, after);
            sum.work += TAU + l.work + r.work;
            sum.span += TAU + (l.span > r.span ? l.span : r.span);
            at = after;
        }
    }
    return sum;
}

int main(void) {
    const uint32_t table[] = {1, 0, 7, 6, 0, 5, 6, 6, 0, 3, 4, 0, 3, 0, 0, 0, 4, 0, 0, 1, 1, 0, 0, 0, 5, 0, 0, 1, 0, 0, 0};
    static uint64_t frames[256 * 32];
    static uint32_t graph[MOST_LENT];
    uint64_t none[1] = {0}, t[MONDUPIL_GRAPH_WORDS];
    for (size_t lent = FEWEST_LENT; lent <= MOST_LENT; lent *= 2) {
        if (mondupil_run_graph(MONDUPIL_HEARTBEAT, table, 31, none, 0, 100, PERIOD, TAU, frames, 256 * 32, graph, lent, t,
                               MONDUPIL_GRAPH_WORDS) != 0) {
            fprintf(stderr, "no such machine, or no room for an answer\n");
            return 1;
        }
        if (t[MONDUPIL_KIND] == MONDUPIL_VALUE) {
            struct cost read = cost_of(graph, graph + t[MONDUPIL_GRAPH]);
            printf("%zu words lent: value %" PRIu64 " work %" PRIu64 " span %" PRIu64 " forks %" PRIu64 " deep %" PRIu64 "\n", lent,
                   t[MONDUPIL_TOLD], t[MONDUPIL_WORK], t[MONDUPIL_SPAN], t[MONDUPIL_FORKS], t[MONDUPIL_DEEPEST]);
            printf("%" PRIu64 " words:", t[MONDUPIL_GRAPH]);
            for (uint64_t i = 0; i < t[MONDUPIL_GRAPH]; i++) printf(" %" PRIu32, graph[i]);
            printf("\nread off them: work %" PRIu64 " span %" PRIu64 "\n", read.work, read.span);
            return 0;
        }
        printf("%zu words lent: %s %" PRIu64 " function %" PRIu64 " node %" PRIu64 " transitions %" PRIu64 " deep %" PRIu64 "\n", lent,
               t[MONDUPIL_KIND] == MONDUPIL_STOP ? "stop" : "refused", t[MONDUPIL_TOLD], t[MONDUPIL_FUNCTION], t[MONDUPIL_NODE],
               t[MONDUPIL_TRANSITIONS], t[MONDUPIL_DEEPEST]);
        if (t[MONDUPIL_KIND] != MONDUPIL_STOP || t[MONDUPIL_TOLD] != 25) return 1;
    }
    return 1;
}
