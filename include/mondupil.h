/* Three cost machines for fork-join jobs: the C interface.
 *
 * Link with target/staticlib/libcapi.a, which `bin/build library` makes. What is said here is proved of the library
 * (crates/capi/src/lib.rt and crates/capi/specs/) for every input. docs/JOBS.md teaches what a job table is and what the numbers of
 * refusals and stops mean; docs/SOURCES.md has the rules.
 */
#ifndef MONDUPIL_H
#define MONDUPIL_H

#include <stddef.h>
#include <stdint.h>

#ifdef __cplusplus
extern "C" {
#endif

/* The machines. */
enum { MONDUPIL_SEQUENTIAL = 0, MONDUPIL_PARALLEL = 1, MONDUPIL_HEARTBEAT = 2 };

/* The kinds of answer. */
enum { MONDUPIL_VALUE = 0, MONDUPIL_STOP = 1, MONDUPIL_REFUSAL = 2 };

/* The places of the words of an answer. MONDUPIL_TOLD is the value, or the number of the stop or of the refusal; MONDUPIL_DEEPEST is the
 * most frames that were occupied at once, the depth. Words that an answer does not have are 0: a value has no function and no node, a
 * stop no forks, work and span, a refusal none after its node.
 *
 * An answer of mondupil_run has the first MONDUPIL_WORDS of them. One of mondupil_run_graph has these and one more, MONDUPIL_GRAPH, the
 * number of words of the cost graph that were written: MONDUPIL_GRAPH_WORDS in all.
 *
 * HOW AN ANSWER GROWS. A later version may add words after the last, and only there: the places above it stay, and MONDUPIL_WORDS and
 * MONDUPIL_GRAPH_WORDS, how many there are, rise. Place 9 stays free in the answers of mondupil_run: a word that is added to both comes
 * after it. A call writes as many of them as are lent, so that a program compiled with an earlier header, which lends fewer, finds in
 * those what it always found. MONDUPIL_FEWEST, how many have to be lent, does not rise. */
enum {
    MONDUPIL_KIND, MONDUPIL_TOLD, MONDUPIL_FUNCTION, MONDUPIL_NODE,
    MONDUPIL_TRANSITIONS, MONDUPIL_FORKS, MONDUPIL_WORK, MONDUPIL_SPAN,
    MONDUPIL_DEEPEST,
    MONDUPIL_WORDS,
    MONDUPIL_GRAPH = 9,
    MONDUPIL_GRAPH_WORDS,
    MONDUPIL_FEWEST = 8
};

/* The numbers of refusals:
 *
 *    1  no word, a number of functions that is not 1 to 64, or fewer words than its pairs
 *    2  an arity above 3, a function with no nodes, or more than 4,000 nodes in all
 *    3  the length is not what the pairs add up to
 *    4  an unknown tag, operation or function
 *    5  a local that is not bound, or a let or both that would bind a seventeenth
 *    6  more than 64 levels
 *    7  another number of arguments than function 0 has
 *    8  a fuel that is not 1 to 100,000,000
 *    9  a period that is not 1 to 10,000
 *   10  a tau that is not 1 to 10,000
 *   11  a workspace that is not 1 to 4,096 whole frames of 32 words
 *   16  an unused word that is not 0
 *   17  a wrong child position, told at the parent
 *   18  a body that ends early, told at the position after its last node, or runs on, told at the first node too many
 *
 * They are tried in rising order, but for 4, 5, 6, 16, 17 and 18, which belong to one walk and so come before 7; at one node 18 is
 * found first where the body has ended, then 4, 16, 5 and 6. Function and node are 0 for 1, 3 and 7 to 11; for 2 the node is 0.
 *
 * And of stops:
 *
 *   20  the fuel is spent
 *   21  no frame is free
 *   22  a sum or a product above 2^64 - 1
 *   23  a difference below 0
 *   24  a division by 0, or its remainder
 *   25  the run has a value, and its cost graph needs more words than were lent; only of mondupil_run_graph
 */

/* Runs one machine on a job table with arguments. `period` is N and `tau` the price of a fork.
 *
 * Returns 0, and `answer` begins with the words of the machine's answer: all nine, or with a length of 8 the first eight. Words after the
 * ninth stay, today; lend MONDUPIL_WORDS, and no later version writes more. After a value or a stop every word of the workspace is 0;
 * after a refusal the workspace is as it was. For an unknown machine, or fewer than eight answer words, it returns 1 and changes nothing.
 *
 * Every input is allowed: what is out of range is refused by a number of the list above. What the caller must see to is C's own: each
 * pointer is not null, even where its length is 0, is aligned and has so many words behind it, and `workspace` and `answer` overlap
 * nothing else. A workspace has 32 words for each frame, and 1 to 4,096 frames.
 *
 * A stop's number is 20 to 24, its function and node are in the table, and its transitions are at most the fuel, and exactly the fuel for
 * 20. The depth of a value or a stop is at most the frames of the workspace, and exactly these for 21. Beside a value, a workspace of so
 * many frames as its depth (and at least 1) gives the same answer, as does any larger one of up to 4,096; a smaller one does not. That is
 * stated of the answers, in crates/language/specs/Depth.antt.
 *
 * Three calls, one of each machine, with the same table, arguments, fuel, period, tau and workspace length, in any order and whatever the
 * workspaces hold: if the sequential machine's answer is a value, then the two others' are the same value, and
 *
 *     period * heartbeat work <= (period + tau) * sequential work
 *     tau * heartbeat span <= (period + tau) * parallel span
 *     heartbeat work + 2 * heartbeat forks == sequential work + tau * heartbeat forks
 *
 * as whole numbers, with the words of the three answers; and all three have the same depth.
 *
 * If the sequential machine's answer is a stop with 21, 22, 23 or 24, then the two others' are stops with the same number, function, node
 * and depth, and their transitions are at most its own. If it is a stop with 20, nothing is said of the others: they may have a value. */
uint32_t mondupil_run(uint32_t machine,
                      const uint32_t *table, size_t table_len,
                      const uint64_t *args, size_t args_len,
                      uint64_t fuel, uint64_t period, uint64_t tau,
                      uint64_t *workspace, size_t workspace_len,
                      uint64_t *answer, size_t answer_len);

/* The same with a buffer lent for the run's cost graph; docs/PLANNER.md teaches what that is, with a reader of it in C.
 *
 * THE WORDS OF A GRAPH are a sequence of parts, from the run's first transition to its last. A part is
 *
 *     a stretch of k transitions, k at least 1: the two words 0, k. Two stretches never touch.
 *     a fork: the three words 1, the length of its left graph in words, the length of its right graph; then the words of the left graph
 *     and those of the right graph. Each is a sequence of parts as well. A left graph may have no words; its length is then 0.
 *
 * Table A of docs/SOURCES.md on the heartbeat machine, with a period of 3, has the graph
 *
 *     0 3 1 2 2 0 4 0 1 0 1
 *
 * a stretch of 3 transitions, a fork of a stretch of 4 and a stretch of 1, and a stretch of 1. A stretch of k costs k of work and k of
 * span. A fork costs tau and the work of both graphs, and tau and the larger of their spans; a sequence costs the sum of its parts. With
 * the tau of the call these are the work and the span of the answer. All three machines write graphs. The sequential machine never forks:
 * its graph is one stretch.
 *
 * Returns 0, and `answer` begins with the words of the machine's answer, as many as are lent: all ten, or with a length of 8 or 9 the
 * first eight or nine. Words after the tenth stay, today; lend MONDUPIL_GRAPH_WORDS. The workspace is as after mondupil_run: 0 after a
 * value or a stop, as it was after a refusal. And
 *
 *     after a value MONDUPIL_GRAPH is the number of words of the graph, `graph` begins with these, and its words after them are 0;
 *     after a stop, 25 too, MONDUPIL_GRAPH is 0, and every word of `graph` is 0;
 *     after a refusal MONDUPIL_GRAPH is 0, and `graph` is as it was.
 *
 * For an unknown machine, or fewer than eight answer words, it returns 1 and changes nothing, `graph` neither.
 *
 * The answer is that of mondupil_run but for one case. Where mondupil_run has a value and its graph needs more words than `graph_len`, the
 * answer is stop 25, with function 0, node 0 and the transitions and the depth of the run; every other stop comes before it. A 25 does not
 * tell how many words are needed: lend more and call again. 2 * transitions + 3 * forks are enough, by the answer of mondupil_run, and so
 * are 9 * forks + 2 (crates/graph_answers/specs/Enough.antt, of the answers). No value's graph is without words, so that an empty buffer
 * gives 25 wherever mondupil_run has a value.
 *
 * Every input is allowed, and every length of `graph`, 0 too. What the caller must see to is what mondupil_run asks for, and that `graph`
 * overlaps nothing else.
 *
 * Three calls, one of each machine, as for mondupil_run, each with a buffer for its graph, of any length: if neither the parallel nor the
 * heartbeat machine's answer is a 25, then what is said there of a sequential value holds. If one of them is, beside a sequential value,
 * its run has the same value, and the two inequalities and the equation hold with the counts that mondupil_run answers for that run. All
 * three have the same depth, a 25 among them; and if the sequential machine's answer is a stop with 21, 22, 23 or 24, what is said there
 * holds in any case, since a 25 comes after every other stop. The promises are in crates/capi/specs/Graphs.antt; that
 * of a 25 beside a sequential value is stated of the answers, in crates/graph_answers/specs/Claim.antt. */
uint32_t mondupil_run_graph(uint32_t machine,
                            const uint32_t *table, size_t table_len,
                            const uint64_t *args, size_t args_len,
                            uint64_t fuel, uint64_t period, uint64_t tau,
                            uint64_t *workspace, size_t workspace_len,
                            uint32_t *graph, size_t graph_len,
                            uint64_t *answer, size_t answer_len);

#ifdef __cplusplus
}
#endif

#endif
