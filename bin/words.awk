# The bytes of a job's text, as octal escapes. The environment has its NAME, and what is to stand in place of the text's own FUEL,
# PERIOD, TAU and ARGUMENTS (empty: the text's own).
function fail(text) {
    print ENVIRON["NAME"] ": " text > "/dev/stderr"
    failed = 1
    exit 1
}

# a text of digits as high * 2^32 + low; high is 2^32 or more where it has more than 64 bits
function split64(text,    i) {
    high = low = 0
    sub(/^0+/, "", text)
    for (i = 1; i <= length(text) && high < 4294967296; i++) {
        low = low * 10 + substr(text, i, 1)
        high = high * 10 + int(low / 4294967296)
        low %= 4294967296
    }
}

function word(what, text) {
    split64(text)
    if (text !~ /^[0-9]+$/ || high > 0) fail(what ": \"" text "\" is no number from 0 to 4294967295")
    return low
}

function setting(option, place) {
    if (ENVIRON[option] != "") w[place] = word("--" tolower(option), ENVIRON[option])
}

function put(value,    k) {
    for (k = 0; k < 4; k++) { printf "\\%03o", value % 256; value = int(value / 256) }
}

# the arguments that are given, in place of the text's own
function put_arguments(given,    i) {
    for (i = 1; i <= given; i++) {
        split64(argument[i])
        if (high >= 4294967296) fail("argument " i ": " argument[i] " is above 18446744073709551615")
        put(low)
        put(high)
    }
}

# a byte order mark, the ends of lines of other systems, comments, bars
NR == 1 { sub(/^\357\273\277/, "") }
{ sub(/\r$/, ""); sub(/#.*/, ""); gsub(/[|]/, " ") }
{ for (i = 1; i <= NF; i++) w[++n] = word("line " NR, $i) }

END {
    if (failed) exit 1
    given = split(ENVIRON["ARGUMENTS"], argument, " ")
    if (given > 3) fail(given " arguments are given, and a job takes at most 3")
    changed = given > 0 || ENVIRON["FUEL"] ENVIRON["PERIOD"] ENVIRON["TAU"] != ""
    if (changed && n < 4) fail("it has " n + 0 " words, and fuel, N, tau and the number of arguments come first")
    setting("FUEL", 1)
    setting("PERIOD", 2)
    setting("TAU", 3)
    table = 5
    if (given > 0) {
        table += 2 * w[4]
        if (w[4] > 3 || table > n + 1) fail("its fourth word says " w[4] " arguments, and they are not there to be replaced")
        w[4] = given
    }
    for (i = 1; i < 5 && i <= n; i++) put(w[i])
    put_arguments(given)
    for (i = table; i <= n; i++) put(w[i])
}
