# The status of report and its explanations, beyond the stored reports (examples/check has those).

# NUMBER: standard error explains it in the words of the table
explained() {
    row=$(awk -F ' *[|] *' -v n="$1" '$2 == n { print $3 "; look at " $4 }' bin/numbers.txt)
    [ -n "$row" ] || wrong "bin/numbers.txt has no $1"
    wrote err " $1: $row"
}

# a program that writes this file, whatever it is given
says() {
    printf '#!/bin/sh\ncat "%s"\n' "$1" > "$work/program"
    chmod +x "$work/program"
}

# every number of the table
for number in $(awk -F ' *[|] *' '{ print $2 }' bin/numbers.txt); do
    kind=refused status=1
    sed "s/.*/refused $number function 0 node 0/; 1q" examples/no_end.report > "$work/says"
    [ "$number" -lt 20 ] || { kind=stop status=2; sed "s/stop [0-9]*/stop $number/" examples/no_end.report > "$work/says"; }
    says "$work/says"
    MONDUPIL=$work/program ends "$status" ./report examples/no_end.job
    explained "$number"
    wrote err "$kind $number"
done

# what is no complete report
for edit in d 1d 4d 2,4d '3s/forks.*//' '1s/ deep.*//' '2s/deep .*/deep/' '1s/value/words/' '$s/$/\nmore/' '2s/parallel/heartbeat/' '4s/[0-9]*$//' '4s/[.].*//' '4s/.$//'; do
    sed "$edit" examples/table_a.report > "$work/says"
    says "$work/says"
    MONDUPIL=$work/program ends 3 ./report examples/table_a.job
    wrote_file "$work/says"
done
printf %s "$(cat examples/table_a.report)" > "$work/says"
MONDUPIL=$work/program ends 3 ./report examples/table_a.job
seen=$((seen + 1))
if ./report examples/table_a.job > /dev/full 2> "$work/err"; then wrong "a report that could not be written has status 0"; fi
