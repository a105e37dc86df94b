# What report is given: it works, or it is said what is wrong, by file and line, before anything is built.
toy "$work/toy"
cd "$work/toy" || exit 1
job=examples/table_a.job stored=$top/examples/table_a.report

# TEXT.. -- COMMAND..: status 3, nothing on standard output, each text on standard error, and nothing was built
refuses() {
    texts=''
    while [ "$1" != -- ]; do texts="$texts$1
"; shift; done
    shift
    ends 3 replayed "$@"
    wrote_nothing
    while IFS= read -r text; do wrote err "$text"; done <<END
${texts%?}
END
    called 0
}

mkdir "$work/folder"
printf '0 0 0 0\n1 | 0 1\n0 7x 0 0\n' > "$work/bad.job"
printf '0 0 0 0\n1 | 0 1\n\n0 4294967296 0 0\n' > "$work/large.job"
printf '0 0 0\0000\n' > "$work/nul.job"
refuses "$work/none.job" -- ./report "$work/none.job"
refuses "$work/folder" folder -- ./report "$work/folder"
refuses "$work/bad.job" 'line 3' 7x -- ./report "$work/bad.job"
refuses "$work/large.job" 'line 4' 4294967296 -- ./report "$work/large.job"
refuses "$work/nul.job" 'line 1' -- ./report "$work/nul.job"
refuses -- ./report ''
refuses --foul -- ./report --foul 3 "$job"
refuses --fuel -- ./report "$job" --fuel
refuses --fuel 1x -- ./report --fuel 1x "$job"
refuses --tau 4294967296 -- ./report --tau 4294967296 "$job"
refuses 5y -- ./report "$job" 5y
refuses "'' is no" -- ./report "$job" ''
refuses 18446744073709551616 -- ./report "$job" 18446744073709551616
refuses 'at most 3' -- ./report "$job" 1 2 3 4
refuses MONDUPIL "$work/none" -- env MONDUPIL="$work/none" ./report "$job"
refuses MONDUPIL "$work/folder" -- env MONDUPIL="$work/folder" ./report "$job"
input=$work/bad.job refuses 'standard input' 'line 3' -- ./report -

# what works: the same report, by another way to it
ends 0 replayed ./report --help
wrote out '--fuel' '--period' '--tau' "'-'" 'no JOB' 'Status' MONDUPIL
called 0
{ printf '\357\273\277'; sed 's/ *#.*//; s/$/\r/' "$job"; } > "$work/marked.job"
sed 's/#.*//; s/\([0-9][0-9]*\)/000000000000000000000000000000\1/g' "$job" > "$work/zeros.job"
sed 's/#.*//' "$job" | tr '\n' '\t' > "$work/one_line.job"
cp "$job" "$work/a=b.job"
cp "$job" ./--fuel
ln -s "$work/toy/report" "$work/link"
mkdir "$work/path" && ln -s ../link "$work/path/costs"
for way in "$job" "$work/marked.job" "$work/zeros.job" "$work/one_line.job" "$work/a=b.job" '-- --fuel' ./--fuel; do
    # shellcheck disable=SC2086
    ends 0 replayed ./report $way
    wrote_file "$stored"
done
for way in '' -; do
    # shellcheck disable=SC2086
    input=$job ends 0 replayed ./report $way
    wrote_file "$stored"
done
cd "$work" || exit 1
for command in "$work/link" path/costs "$work/toy/bin/report"; do
    ends 0 replayed "$command" a=b.job
    wrote_file "$stored"
done
PATH=$work/path:$PATH ends 0 replayed costs a=b.job
wrote_file "$stored"
