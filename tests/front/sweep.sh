# bin/sweep shows a table only of three values, and the numbers in it are the report's.

# JOB TAU N..: each row has the report's numbers and the most that is proved
sweeps() {
    job=$1 tau=$2
    ends 0 bin/sweep "$@"
    sed 1,2d "$work/out" > "$work/rows"
    sed -n 's/%//; 1p' "$work/out" > "$work/head"
    shift 2
    for n; do
        bin/report --period "$n" --tau "$tau" "$job" > "$work/report"
        row_agrees "$n" || wrong "sweep of $job at N $n, tau $tau: another row"
    done
    [ "$(wc -l < "$work/rows")" -eq $# ] || wrong "sweep of $job: not one row for each N"
}

# N: the row of this N beside $work/report
row_agrees() {
    seen=$((seen + 1))
    read -r _ _ _ _ sequential _ _ _ _ < "$work/report"
    # shellcheck disable=SC2046
    set -- "$1" "$sequential" $(sed -n 2p "$work/report") $(sed -n 3p "$work/report") $(awk -v n="$1" '$1 == n' "$work/rows")
    [ $# -eq 31 ] || return 1
    # 3: parallel value V work 7 span 9 forks F deep D; 14: heartbeat value V work 18 span 20 forks 22 deep D; 25: the row's N forks work most % span most
    [ "${26}" = "${22}" ] && [ "${27}" = "${18}" ] && [ "${30}" = "${20}" ] || return
    [ $((${28} * $1)) -le $((($1 + tau) * $2)) ] && [ $(((${28} + 1) * $1)) -gt $((($1 + tau) * $2)) ] || return
    [ $((${31} * tau)) -le $((($1 + tau) * $9)) ] && [ $(((${31} + 1) * tau)) -gt $((($1 + tau) * $9)) ] || return
    grep -qx "tau $tau, sequential work $2, parallel work $7 span $9" "$work/head"
}

sweeps examples/tree_sum.job 50 50 1000 10000
sweeps examples/table_a.job 2 1 3
sweeps examples/fork_not_worth_it.job 2000 100 1000

# no table, where the report has none: its lines and its status instead
for job in examples/*.job; do
    bin/report --period 100 --tau 50 "$job" > "$work/report" 2> "$work/explained"
    status=$?
    [ "$status" -ne 0 ] || continue
    ends "$status" bin/sweep "$job" 50 100
    wrote_nothing
    while IFS= read -r line; do wrote err "$line"; done < "$work/report"
done

# no table for numbers that are no settings, nor without a job
for given in '0 100' '10001 100' '50 0' '50 10001' '50 100 0' '50 x' '-1 100' '50 99999999999999999999'; do
    # shellcheck disable=SC2086
    ends 3 bin/sweep examples/tree_sum.job $given
    wrote_nothing
    wrote err 'sweep: '
done
ends 3 bin/sweep "$work/none.job" 50 100
wrote_nothing
wrote err "$work/none.job"

# words as bin/words reads them
{ printf '\357\273\277'; sed 's/ *#.*//; s/ /\t/g; s/$/\r/' examples/tree_sum.job; } > "$work/tabs=.job"
bin/sweep examples/tree_sum.job 50 1000 > "$work/plain"
ends 0 bin/sweep "$work/tabs=.job" 050 01000
wrote_file "$work/plain"
