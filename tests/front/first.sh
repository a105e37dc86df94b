# The first run: what README says is needed, what is said while the program is built, and the C program of README from nothing.
toy "$work/toy"
cd "$work/toy" || exit 1
{ echo 'a line of the prover'; cat "$work/program.said"; } > "$work/said" && mv "$work/said" "$work/program.said"

# TOTAL: the last command said before the wait how many crates, how long and once; then a line for each crate, with the count
told_progress() {
    head -n 2 "$work/err" > "$work/before"
    for text in "$1 crates" minutes once; do
        seen=$((seen + 1))
        grep -q "$text" "$work/before" || { wrong "'$text' is not said before the wait:"; cat "$work/before"; }
    done
    sed -n "s/^build: \([0-9]*\) of $1, .*/\1/p" "$work/err" > "$work/counts"
    seq "$1" | diff - "$work/counts" || wrong "the crates are not counted from 1 to $1"
    [ "$(wc -l < "$work/err")" -eq $(($1 + 2)) ] || { wrong "other lines than the crates':"; cat "$work/err"; }
}

ends 0 replayed bin/build library
told_progress "$(grep -c '^== rt lib in crates/' "$work/library.said")"
ends 0 replayed ./report examples/table_a.job
wrote_file "$top/examples/table_a.report"
told_progress "$(grep -c '^== rt [a-z]* in crates/' "$work/program.said")"
# the prover's text is in the log that is named
log=$(grep -o 'target/[a-z/]*\.log' "$work/before")
seen=$((seen + 1))
diff "$work/program.said" "${log:-/dev/null}" | grep '^<' && wrong "the prover's text is not whole in the log '$log'"

# PAGE SECTION: its lines
section() { awk -v title="## $2" '/^## / { inside = $0 == title } inside' "$1"; }

# what is needed stands first, with each tool that the gate asks for and the toolchain's version, whatever the build
seen=$((seen + 1))
[ "$(grep -m 1 '^## ' README.md)" = '## What is needed' ] || wrong "README does not begin with what is needed"
section README.md 'What is needed' > "$work/needed"
tools=$(sed -n 's/^tools=.\([a-z0-9 ]*\).$/\1/p' .ci/run)
kit=$(rt version | grep -o '^rattle-kit-[0-9a-z]*') || wrong "rt version names no kit"
for text in "$kit" x86-64 $tools; do
    seen=$((seen + 1))
    grep -qF "$text" "$work/needed" || wrong "'$text' is not in what is needed"
done
[ -n "$tools" ] || wrong ".ci/run names no tools"
# the quick try, and what it does not assure
seen=$((seen + 1))
grep -q 'cd crates/mondupil && rt try' README.md && grep -q 'proves nothing' README.md || wrong "README does not tell the quick try, and that it proves nothing"

# the C program of README, with the commands beside it, where nothing is built
rm -rf target
section README.md 'From C' > "$work/section"
awk '/^```c$/ { inside = 1; next } /^```/ { inside = 0 } inside' "$work/section" > examples/table_a.c
awk '/^```console$/ { inside = 1; next } /^```/ { inside = 0 } inside' "$work/section" > "$work/console"
grep '^[$] ' "$work/console" | sed 's/^..//' > "$work/commands"
grep -v '^[$] ' "$work/console" > "$work/shown"
[ -s "$work/shown" ] || wrong "README shows no output of its C program"
replayed sh "$work/commands" > "$work/out" 2> "$work/err"
wrote_file "$work/shown"
[ "$bad" -eq 0 ] || cat "$work/err"
