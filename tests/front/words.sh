# bin/words: the bytes are the text's words, low byte first, and those of the command line stand in their places.

# the words of bytes, one a line
decoded() { od -An -v -tu1 -w4 | while read -r a b c d; do echo $((a + 256 * (b + 256 * (c + 256 * d)))); done; }
# JOB: the words of a text, one a line
written() { sed 's/#.*//; s/|/ /g' "$1" | tr -s ' ' '\n' | grep . ; }

for job in examples/*.job tests/report/*.job; do
    seen=$((seen + 1))
    written "$job" > "$work/wanted"
    bin/words "$job" > "$work/bytes"
    decoded < "$work/bytes" | diff "$work/wanted" - || wrong "$job: other words"
    [ "$(wc -c < "$work/bytes")" -eq $((4 * $(wc -l < "$work/wanted"))) ] || wrong "$job: not four bytes for each word"
done

# WORDS.. -- COMMAND LINE..: the words in front of the table of the example with three arguments
given() {
    front=''
    while [ "$1" != -- ]; do front="$front $1"; shift; done
    shift
    # shellcheck disable=SC2086
    { printf '%s\n' $front; written examples/sheet_bytes.job | sed 1,10d; } > "$work/wanted"
    ends 0 bin/words "$@"
    decoded < "$work/out" | diff "$work/wanted" - || wrong "words $*: other words"
}
job=examples/sheet_bytes.job
given 5 6 7 3 40000 0 30000 0 8 0 -- --fuel 5 --period 6 --tau 7 "$job"
given 0 6 0 3 40000 0 30000 0 8 0 -- "$job" --period 6
given 0 0 0 1 21000 0 -- "$job" 21000
given 0 0 9 2 $((9600000000 % 4294967296)) $((9600000000 / 4294967296)) 1 0 -- "$job" 9600000000 --tau 9 1
given 0 0 0 3 4294967295 4294967295 0 1 4294967295 0 -- "$job" 18446744073709551615 4294967296 0004294967295
for text in '1 x' '-1' 4294967296 1.5 0x10 1e3 '1,000' "1
2
3-"; do
    echo "$text" > "$work/text"
    ends 1 bin/words "$work/text"
    wrote_nothing
    wrote err "line $(echo "$text" | wc -l)"
done
# a text that has no place for what is given
echo '0 0' > "$work/text"
ends 1 bin/words --tau 5 "$work/text"
echo '0 0 0 3 1 0' > "$work/text"
ends 1 bin/words "$work/text" 5

# the report on what is given is the report on the text with it
ends 0 ./report "$job" 21000 21000 3
wrote out "sequential value $((21000 * 21000 * 3)) "
sed '1,2d; 3s/.*/9 0 0 3/; s/^40000 0/7 0/' "$job" > "$work/edited.job"
./report "$work/edited.job" > "$work/wanted"
ends 0 ./report --fuel 9 "$job" 7 30000 8
wrote_file "$work/wanted"
ends 2 ./report --fuel 8 "$job" 7 30000 8
wrote out 'stop 20' 'transitions 8'
ends 1 ./report --period 10001 "$job"
wrote out 'refused 9 '
