# The C examples: numbers of 64 bits, by the header's names; the return value and the kind looked at.
compile() { cc -Wall -Wextra -Werror -pedantic -std=c99 -I include "$@"; }

# RETURNS KIND TOLD: a library whose functions give this, for each of the other words its place with TOLD after it, and one stretch as a graph
pretend() {
    cat > "$work/pretend.c" <<END
#include "mondupil.h"
uint32_t mondupil_run(uint32_t machine, const uint32_t *table, size_t table_len, const uint64_t *args, size_t args_len, uint64_t fuel,
                      uint64_t period, uint64_t tau, uint64_t *workspace, size_t workspace_len, uint64_t *answer, size_t answer_len) {
    (void)machine, (void)table, (void)table_len, (void)args, (void)args_len, (void)fuel, (void)period, (void)tau, (void)workspace;
    (void)workspace_len, (void)answer_len;
    for (uint64_t i = 0; i < MONDUPIL_WORDS; i++) answer[i] = UINT64_C($3) + 10 * i;
    answer[MONDUPIL_KIND] = $2;
    answer[MONDUPIL_TOLD] = UINT64_C($3);
    return $1;
}
uint32_t mondupil_run_graph(uint32_t machine, const uint32_t *table, size_t table_len, const uint64_t *args, size_t args_len, uint64_t fuel,
                            uint64_t period, uint64_t tau, uint64_t *workspace, size_t workspace_len, uint32_t *graph, size_t graph_len,
                            uint64_t *answer, size_t answer_len) {
    (void)graph_len;
    graph[0] = 0, graph[1] = UINT32_MAX, answer[MONDUPIL_GRAPH] = 2;
    return mondupil_run(machine, table, table_len, args, args_len, fuel, period, tau, workspace, workspace_len, answer, answer_len);
}
END
    for example in table_a sheet graph; do compile "examples/$example.c" "$work/pretend.c" -o "$work/$example" || wrong "$example.c does not compile"; done
}

# the lines that the program gives for the same jobs
for example in table_a sheet graph; do compile "examples/$example.c" target/staticlib/libcapi.a -o "$work/$example" || wrong "$example.c does not compile"; done
ends 0 "$work/table_a"
wrote out "$(sed -n 's/^heartbeat //p' examples/table_a.report)"
ends 0 "$work/sheet" 40000 30000 8
wrote out "$(awk '$1 == "sequential" { print $3 }' examples/sheet_bytes.report) bytes"
ends 2 "$work/sheet" 2147483648 2147483648 8
wrote out "$(sed -n 's/^sequential //p' examples/sheet_too_large.report)"
ends 3 "$work/sheet" 99999999999999999999 1 1
ends 0 "$work/graph"
wrote out '8 words lent: stop 25 function 0 node 0 transitions 9 deep 2' "16 words lent: $(sed -n 's/^heartbeat //p' examples/table_a.report)"
wrote out '11 words: 0 3 1 2 2 0 4 0 1 0 1' "read off them: $(sed -n 's/^heartbeat.* \(work .*\) forks.*/\1/p' examples/table_a.report)"

# as many words of an answer as are lent, with eight at least: one that lends eight, as an answer once had, finds what it found then
cat > "$work/lends.c" <<'END'
#include <inttypes.h>
#include <stdio.h>
#include "mondupil.h"
int main(void) {
    const uint32_t table[] = {1, 0, 7, 6, 0, 5, 6, 6, 0, 3, 4, 0, 3, 0, 0, 0, 4, 0, 0, 1, 1, 0, 0, 0, 5, 0, 0, 1, 0, 0, 0};
    for (size_t lent = MONDUPIL_FEWEST - 1; lent <= MONDUPIL_WORDS + 1; lent++) {
        uint64_t frames[2 * 32], none[1] = {0}, t[12];
        for (int i = 0; i < 12; i++) t[i] = 77;
        uint32_t returned = mondupil_run(MONDUPIL_HEARTBEAT, table, 31, none, 0, 100, 3, 2, frames, 2 * 32, t, lent);
        printf("%zu words: %" PRIu32 ":", lent, returned);
        for (int i = 0; i < 12; i++) printf(" %" PRIu64, t[i]);
        printf("\n");
    }
    return 0;
}
END
compile "$work/lends.c" target/staticlib/libcapi.a -o "$work/lends" || wrong "lends.c does not compile"
ends 0 "$work/lends"
wrote out '7 words: 1: 77 77 77 77 77 77 77 77 77 77 77 77' '8 words: 0: 0 4 0 0 9 1 11 10 77 77 77 77'
wrote out '9 words: 0: 0 4 0 0 9 1 11 10 2 77 77 77' '10 words: 0: 0 4 0 0 9 1 11 10 2 77 77 77'

# the same beside a buffer for the graph, whose answer has a tenth word; and what each ending leaves in the buffer and in the workspace
cat > "$work/graphs.c" <<'END'
#include <inttypes.h>
#include <stdio.h>
#include "mondupil.h"
static void call(const char *what, uint32_t machine, uint64_t fuel, uint64_t period, size_t room, size_t lent) {
    const uint32_t table[] = {1, 0, 7, 6, 0, 5, 6, 6, 0, 3, 4, 0, 3, 0, 0, 0, 4, 0, 0, 1, 1, 0, 0, 0, 5, 0, 0, 1, 0, 0, 0};
    uint64_t frames[2 * 32], none[1] = {0}, t[12];
    uint32_t graph[13];
    for (int i = 0; i < 2 * 32; i++) frames[i] = 77;
    for (int i = 0; i < 12; i++) t[i] = 77;
    for (int i = 0; i < 13; i++) graph[i] = 77;
    uint32_t returned = mondupil_run_graph(machine, table, 31, none, 0, fuel, period, 2, frames, 2 * 32, graph, room, t, lent);
    printf("%s, %zu words: %" PRIu32 ":", what, lent, returned);
    for (int i = 0; i < 12; i++) printf(" %" PRIu64, t[i]);
    printf(";");
    for (int i = 0; i < 13; i++) printf(" %" PRIu32, graph[i]);
    printf("; %" PRIu64 " %" PRIu64 "\n", frames[0], frames[2 * 32 - 1]);
}
int main(void) {
    for (size_t lent = MONDUPIL_FEWEST - 1; lent <= MONDUPIL_GRAPH_WORDS + 1; lent++) call("A", MONDUPIL_HEARTBEAT, 100, 3, 11, lent);
    call("more", MONDUPIL_HEARTBEAT, 100, 3, 12, MONDUPIL_GRAPH_WORDS);
    call("sequential", MONDUPIL_SEQUENTIAL, 100, 3, 2, MONDUPIL_GRAPH_WORDS);
    call("fewer", MONDUPIL_HEARTBEAT, 100, 3, 10, MONDUPIL_GRAPH_WORDS);
    call("none", MONDUPIL_PARALLEL, 100, 3, 0, MONDUPIL_GRAPH_WORDS);
    call("stopped", MONDUPIL_SEQUENTIAL, 10, 3, 1, MONDUPIL_GRAPH_WORDS);
    call("refused", MONDUPIL_HEARTBEAT, 100, 0, 11, MONDUPIL_GRAPH_WORDS);
    call("unknown", 3, 100, 3, 11, MONDUPIL_GRAPH_WORDS);
    return 0;
}
END
compile "$work/graphs.c" target/staticlib/libcapi.a -o "$work/graphs" || wrong "graphs.c does not compile"
ends 0 "$work/graphs"
found='77 77 77 77 77 77 77 77 77 77 77 77; 77 77 77 77 77 77 77 77 77 77 77 77 77; 77 77'
graph='0 3 1 2 2 0 4 0 1 0 1'
wrote out "A, 7 words: 1: $found" "A, 8 words: 0: 0 4 0 0 9 1 11 10 77 77 77 77; $graph 77 77; 0 0"
wrote out "A, 9 words: 0: 0 4 0 0 9 1 11 10 2 77 77 77; $graph 77 77; 0 0" "A, 10 words: 0: 0 4 0 0 9 1 11 10 2 11 77 77; $graph 77 77; 0 0"
wrote out "A, 11 words: 0: 0 4 0 0 9 1 11 10 2 11 77 77; $graph 77 77; 0 0"
wrote out "more, 10 words: 0: 0 4 0 0 9 1 11 10 2 11 77 77; $graph 0 77; 0 0"
wrote out 'sequential, 10 words: 0: 0 4 0 0 11 0 11 11 2 2 77 77; 0 11 77 77 77 77 77 77 77 77 77 77 77; 0 0'
wrote out 'fewer, 10 words: 0: 1 25 0 0 9 0 0 0 2 0 77 77; 0 0 0 0 0 0 0 0 0 0 77 77 77; 0 0'
wrote out 'none, 10 words: 0: 1 25 0 0 5 0 0 0 2 0 77 77; 77 77 77 77 77 77 77 77 77 77 77 77 77; 0 0'
wrote out 'stopped, 10 words: 0: 1 20 0 6 10 0 0 0 2 0 77 77; 0 77 77 77 77 77 77 77 77 77 77 77 77; 0 0'
wrote out 'refused, 10 words: 0: 2 9 0 0 0 0 0 0 0 0 77 77; 77 77 77 77 77 77 77 77 77 77 77 77 77; 77 77'
wrote out "unknown, 10 words: 1: $found"

# an answer of 64 bits is told whole
pretend 0 MONDUPIL_VALUE 9223372036854775807
ends 0 "$work/table_a"
wrote out 'value 9223372036854775807' 'forks 9223372036854775857' 'work 9223372036854775867' 'span 9223372036854775877' 'deep 9223372036854775887'
ends 0 "$work/sheet" 1 1 1
wrote out '9223372036854775807 bytes'
ends 0 "$work/graph"
wrote out 'value 9223372036854775807' 'work 9223372036854775867' '2 words: 0 4294967295' 'read off them: work 4294967295 span 4294967295'

# no number is taken for a value that is none
for answer in '1 MONDUPIL_VALUE' '0 MONDUPIL_STOP' '0 MONDUPIL_REFUSAL'; do
    # shellcheck disable=SC2086
    pretend $answer 22
    for command in "$work/table_a" "$work/sheet 1 1 1" "$work/graph"; do
        seen=$((seen + 1))
        if $command > "$work/out" 2>&1; then wrong "$command takes $answer 22 for a value:"; cat "$work/out"; fi
    done
done
