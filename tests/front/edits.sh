# What the gate asks of must-fail edits is asked: each fault of an edit, of its twin, of its log and of the page of toys is told.
toy "$work/toy"
cd "$work/toy" || exit 1
edit=tests/edits/table/no_nodes.edit

# FILE SCRIPT: the file, changed by sed's script, for the next command
with() { cp "$top/$1" "$1"; sed -i "$2" "$1"; }
back() { for file; do cp "$top/$file" "$file"; done; }

ends 0 tests/edits/forms
# SCRIPT TEXT: with the edit so changed, forms fails and says so
told() { with "$edit" "$1"; ends 1 tests/edits/forms; wrote out "$edit: $2"; }
told '/^# refused by/d' "no_nodes has no line '# refused by: NAME'"
told 's/^# refused by: .*/# refused by: no_such_function/' 'no_nodes: no_such_function is neither a function of table nor a declaration of its proofs'
told 's/^old: .*/old: words/' 'no_nodes: its text is not once in src/lib.rt: words'
told 's/^# refused by/# no twin: a trial\n&/' "no_nodes needs a twin in tests/twins, or a line '# no twin: REASON', and not both"
back "$edit"
edit=tests/edits/report/half_words.edit
told '/^# no twin/d' "half_words needs a twin in tests/twins, or a line '# no twin: REASON', and not both"
back "$edit"
with tests/twins/table/body_runs_on.edit 's/^old: .*/old: if 64 < functions {/; s/^new: .*/new: if functions > 64 {/'
ends 1 tests/edits/forms
wrote out 'tests/twins/table/body_runs_on.edit: it is of another place than its edit'
back tests/twins/table/body_runs_on.edit
# code that no function reaches which users call
printf '\npub fn spare() -> u64\n    ensures { result ≡ 4711 }\n{\n    4711\n}\n' >> crates/table/src/lib.rt
printf '# Nobody calls it.\n# refused by: spare\n# no twin: a trial\nfile: src/lib.rt\nold: result ≡ 4711\nnew: result ≡ 4712\n' > tests/edits/table/spare.edit
ends 1 tests/edits/forms
wrote out "tests/edits/table/spare.edit: spare: no function that users call reaches spare"
rm tests/edits/table/spare.edit
back crates/table/src/lib.rt
# edits of one file that are not independent: two of one function
cat tests/edits/table/no_nodes.edit | sed 's/^# refused/# edit: again\n&/' >> crates/table/must-fail/together.edit
sed 's/^# refused/# edit: arity\n&/' tests/edits/table/arity_4.edit >> crates/table/must-fail/together.edit
ends 1 tests/edits/forms
wrote out 'crates/table/must-fail/together.edit: its edits are not independent of each other'
back crates/table/must-fail/together.edit
with crates/machine/must-fail/span_invented.edit '/^# toy/d'
ends 1 tests/edits/forms
wrote out 'no edit that rt ci tries has the toy: invented span' 'docs/TOYS.md is not what the edits say'
back crates/machine/must-fail/span_invented.edit

# the log of an edit: refused by what it names, by another, for its shape, not at all
log=$work/logs/table/level_65.log
mkdir -p "$(dirname "$log")"
# STATUS LINE..: a log of these lines ends logs with the status
said() {
    ended_with=$1
    shift
    printf '%s\n' "$@" > "$log"
    ends "$ended_with" tests/edits/logs "$work/logs" table/level_65
}
said 0 './proofs/number/Answers.antt:16:15: error: `returns`: it differs' 'fn table::number: not proved' 'logic=not-proved'
said 0 'fn table::number: no proof: expected answers in ./proofs/number/Answers.antt; `search` did not prove `returns`' 'logic=not-proved'
said 1 './proofs/node_of/Answers.antt:26:13: error: `returns`: it differs' \
    './proofs/number/Answers.antt:64:5: error: 1 declaration that depends on `returns`, which was not admitted, was not checked: close' \
    'fn table::number: no proof: it calls `table::node_of`, which is not proved' 'logic=not-proved'
wrote out 'table/level_65: REFUSED BY ANOTHER: not by number, but by node_of'
said 1 './proofs/number/Answers.antt:14:31: error: `returns-then-x`: `goal.returns-then-x`: module `Rattle.table.proofs.number.Goals` has no `returns-then-x` that can be named from here' \
    'logic=not-proved'
wrote out 'table/level_65: REFUSED FOR ITS SHAPE'
said 1 './specs/Walk.antt:6:5: error: `number_of`: `numberOf` is not in scope' 'logic=not-proved'
wrote out 'table/level_65: REFUSED FOR ITS TEXT'
said 1 'logic=proved functions=28'
wrote out 'table/level_65: NOT REFUSED'
rm "$log"
ends 1 tests/edits/logs "$work/logs" table/level_65
wrote out 'table/level_65: NOT TRIED'

# beside an edit that is refused, one that is not is not counted: with the prover, over what was proved last
[ ! -d "$top/crates/table/out" ] || cp -R "$top/crates/table/out" crates/table/
printf '# It changes nothing.\n# refused by: body_read\nfile: src/lib.rt\nold: if q == n =>\nnew: if q == n + 0 =>\n' > tests/edits/table/harmless.edit
ends 1 tests/edits/run table/harmless table/no_nodes
wrote out 'table/no_nodes: refused by entry_read' 'table/harmless: NOT REFUSED' '1 of 2 edits refused'
mkdir -p tests/twins/table
printf '# It changes the answer.\nfile: src/lib.rt\nold: if nodes(words, f) < 1 {\nnew: if nodes(words, f) < 2 {\n' > tests/twins/table/no_nodes.edit
ends 1 tests/twins/run table/no_nodes table/body_runs_on
wrote out 'table/no_nodes: NOT ACCEPTED: entry_read' 'table: accepted: body_runs_on' '1 of 2 twins accepted'
