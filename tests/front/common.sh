# What the parts share. They run at the top of the repository, with $work as a folder of their own, and count in $seen and $bad.
top=$PWD

wrong() { echo "front, $part: $*"; bad=$((bad + 1)); }

# STATUS COMMAND..: the command ends with the status; what it writes is in $work/out and $work/err
ends() {
    wanted=$1
    shift
    "$@" > "$work/out" 2> "$work/err" < "${input:-/dev/null}"
    ended=$?
    seen=$((seen + 1))
    [ "$ended" -eq "$wanted" ] || { wrong "$*: status $ended, not $wanted, with"; cat "$work/out" "$work/err"; }
}

# out|err TEXT..: the last command wrote each text there
wrote() {
    where=$1
    shift
    for text; do
        seen=$((seen + 1))
        grep -qF -- "$text" "$work/$where" || { wrong "'$text' is not in what was written to $where:"; cat "$work/$where"; }
    done
}

# FILE: what the last command wrote to standard output
wrote_file() {
    seen=$((seen + 1))
    diff "$1" "$work/out" || wrong "another output than $1"
}

# the last command wrote nothing to standard output
wrote_nothing() { : > "$work/nothing"; wrote_file "$work/nothing"; }

# FOLDER: a copy of the repository, with nothing built, and beside it $work/tools/rt, a toolchain that replays what rt said
# of the program and the library when they were built, leaves the products of the repository where rt does, and notes in $work/calls how
# it was called: of a build, which asks for one crate after another, the call for table, with which each begins.
# Where RT_REFUSES is set, it refuses table with that text instead.
toy() {
    mkdir -p "$1" "$work/tools"
    # a repository without its history: all but .git, target/ and what rt left beside the sources
    tar cf - --exclude ./.git --exclude ./target --exclude './crates/*/out' . | tar xf - -C "$1"
    : > "$work/calls"
    cat > "$work/tools/rt" <<END
#!/bin/sh
replays() { cat "$work/\$1.said"; mkdir -p out; cp "$top/target/\$2" out; }
case "\$1 \${PWD##*/}" in
version\ *) echo "\${RT_VERSION:-a toolchain that replays}" ;;
'run mondupil') replays program bin/mondupil ;;
'lib capi') replays library staticlib/libcapi.a ;;
'lib table')
    echo "\$*" >> "$work/calls"
    [ -z "\$RT_REFUSES" ] || { echo "\$RT_REFUSES"; exit 1; } ;;
lib\ *) ;;
*) echo "\$*" >> "$work/calls" ;;
esac
END
    chmod +x "$work/tools/rt"
}

# COMMAND..: with the toolchain that replays
replayed() { PATH=$work/tools:$PATH "$@"; }

# NUMBER: so often rt has been called to build
called() {
    seen=$((seen + 1))
    count=$(wc -l < "$work/calls")
    [ "$count" -eq "$1" ] || { wrong "rt was called $count times and not $1:"; cat "$work/calls"; }
}
