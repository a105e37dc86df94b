# No stale program and no stale library: after a change what is run is built again, or it is said that it is not.
toy "$work/toy"
cd "$work/toy" || exit 1
job=examples/table_a.job stored=$top/examples/table_a.report
builds=0

# COMMAND..: ends well, and has built once more
builds() { builds=$((builds + 1)); keeps "$@"; }
# COMMAND..: ends well, and has built no more
keeps() { ends 0 replayed "$@"; called "$builds"; }

# COMMAND..: the product is built at first, after each change that can change it, and at no other time
follows() {
    builds "$@"
    keeps "$@"
    echo '// edited' >> crates/table/src/lib.rt
    builds "$@"
    keeps "$@"
    echo '-- edited' >> crates/machine/specs/Workspace.antt
    touch -d '2001-01-01' crates/machine/specs/Workspace.antt
    builds "$@"
    echo 'module added where' > crates/moves/proofs/Added.antt
    builds "$@"
    rm crates/moves/proofs/Added.antt
    builds "$@"
    echo '# edited' >> crates.txt
    builds "$@"
    RT_VERSION=another builds "$@"
    builds "$@"
    echo '-- edited' >> crates/published/specs/Stops.antt
    keeps "$@"
}

# PRODUCT COMMAND..: a product that something else has written is not taken
replaces() {
    printf '#!/bin/sh\necho old\n' > "$1"
    shift
    builds "$@"
}

# COMMAND..: where the sources are refused, the command fails with the reason and does not take what is there
gives_up() {
    builds=$((builds + 1))
    RT_REFUSES='crates/table/src/lib.rt:1:1: error: a reason' ends "$@"
    wrote err 'a reason'
    seen=$((seen + 1))
    ! grep -q value "$work/out" || { wrong "a stale report:"; cat "$work/out"; }
    called "$builds"
}

follows ./report "$job"
wrote_file "$stored"
replaces target/bin/mondupil ./report "$job"
wrote_file "$stored"
follows bin/build library
replaces target/staticlib/libcapi.a bin/build library

echo '// edited again' >> crates/table/src/lib.rt
gives_up 3 replayed ./report "$job"
gives_up 3 replayed ./report "$job"
gives_up 1 replayed bin/build library
# the checks too: what they link and run is of these sources
for check in examples/check docs/check; do
    builds ./report "$job"
    builds bin/build library
    echo '// edited' >> crates/table/src/lib.rt
    gives_up 1 replayed "$check"
done
builds ./report "$job"
wrote_file "$stored"

# a program that MONDUPIL names is taken as it is
echo '// edited' >> crates/table/src/lib.rt
MONDUPIL=$top/target/bin/mondupil keeps ./report "$job"
wrote_file "$stored"
