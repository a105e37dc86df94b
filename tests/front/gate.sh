# The gate says what is missing before it proves anything, how far it is, why a check failed and how long each part took; its last line is the tally.
toy "$work/toy"
cd "$work/toy" || exit 1
checks=$(sed -n "s/^checks='\(.*\)'$/\1/p" .ci/run)
edits=$(find crates -path '*/must-fail/*.edit' | wc -l)
said_ok="rt: table proved\nrt: must-fail table/x.edit: refused, as it must be\nrt: ok; handles allowed: none; must-fail edits: $edits refused%s; every proof and must-fail edit was done in this run\n7 passed, 0 failed\n"
# shellcheck disable=SC2059
printf "$said_ok" '' > "$work/ci.said"
cat > "$work/tools/rt" <<END
#!/bin/sh
echo "\$*" >> "$work/calls"
cat "$work/ci.said"
exit \${RT_STATUS:-0}
END

# NAME STATUS: what stands for a check here
check_is() {
    printf '#!/bin/sh\necho "the words of %s"\nexit %s\n' "$1" "$2" > "$1"
    chmod +x "$1"
}
# LINE: the last one
last() { seen=$((seen + 1)); [ "$(tail -n 1 "$work/out")" = "$1" ] || { wrong "the last line is not '$1' but:"; tail -n 1 "$work/out"; }; }

for check in $checks; do check_is "$check" 0; done
steps=$(($(echo "$checks" | wc -w) + 1))
seen=$((seen + 1))
[ "$steps" -ge 4 ] || wrong "the gate's checks are not found: $checks"

ends 0 replayed bash .ci/run
last '7 passed, 0 failed'
for step in $(seq "$steps"); do wrote out "$step of $steps, "; done
for check in $checks; do wrote out "$steps, $check" "the words of $check"; done
wrote out 'crates' 'edits'
wrote out '] rt: table proved' '] rt: must-fail table/x.edit: refused'
called 1
# before the last line, a row with its seconds for rt ci, for each check and for all
tail -n "$((steps + 2))" "$work/out" | sed '$d' > "$work/rows"
seen=$((seen + 1))
[ "$(grep -c '^gate: *[0-9][0-9]* s  ' "$work/rows")" -eq "$((steps + 1))" ] || { wrong "the last lines are not the parts with their seconds, but:"; cat "$work/rows"; }
for row in 'rt ci' $checks 'in all'; do
    seen=$((seen + 1))
    grep -q "s  $row\$" "$work/rows" || wrong "no row of the seconds is for $row"
done

# a check that fails is named, told whole, and counted
for check in $checks; do
    check_is "$check" 1
    ends 1 replayed bash .ci/run
    last '7 passed, 1 failed'
    wrote out "the words of $check" "$check FAILED"
    check_is "$check" 0
done

# an edit that rt cannot apply or read fails the gate, though not rt
# shellcheck disable=SC2059
printf "$said_ok" ', 2 bad' > "$work/ci.said"
ends 1 replayed bash .ci/run
last '7 passed, 1 failed'
wrote out 'rt ci FAILED: a must-fail edit is bad'

# and so does one that rt did not try
# shellcheck disable=SC2059
printf "$said_ok" '' | sed "s/: $edits refused/: $((edits - 1)) refused/" > "$work/ci.said"
ends 1 replayed bash .ci/run
last '7 passed, 1 failed'
wrote out "rt ci FAILED: not $edits must-fail edits refused"

# where rt fails, its own tally is the last line, and nothing more is run
printf 'rt: FAILED: table\n6 passed, 1 failed\n' > "$work/ci.said"
RT_STATUS=1 ends 1 replayed bash .ci/run
last '6 passed, 1 failed'
seen=$((seen + 1))
! grep -q 'the words of' "$work/out" || wrong "checks are run after rt has failed"

# a tool that is missing is named before rt is called
mkdir "$work/path"
# shellcheck disable=SC2046
find "$work/tools" $(echo "$PATH" | tr : '\n' | sort -u) -maxdepth 1 ! -type d -exec ln -sf -t "$work/path" {} +
ln -sf "$work/tools/rt" "$work/path/rt"
for tool in rt rustc cc python3; do
    mv "$work/path/$tool" "$work/aside"
    : > "$work/calls"
    PATH=$work/path ends 1 bash .ci/run
    wrote out "$tool is not found"
    last '0 passed, 1 failed'
    called 0
    mv "$work/aside" "$work/path/$tool"
done
