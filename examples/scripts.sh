#!/usr/bin/env bash
# Tries the tools items and state-of-folder, ./install, and a state of version 2. ./test calls this script.
#
#     examples/scripts.sh [PROGRAM]
#
# PROGRAM is the built program (crates/hubsync/out/hubsync if left out). A line is printed for each thing that is wrong. The status is
# 1 if there was one, else 0. Bash, Perl, Python 3 and the GNU core utilities are needed, and no Unison.
set -euo pipefail
if [ "${1:-}" = --help ]; then
    sed -n '2,/^set /{ /^#/s/^# \{0,1\}//p }' "${BASH_SOURCE[0]}"
    exit 0
fi
folder=$(dirname "$(readlink -f "${BASH_SOURCE[0]}")")
program=$(readlink -f "${1:-$folder/../crates/hubsync/out/hubsync}")
wrong=0

complain() {
    echo "scripts: $*"
    wrong=$((wrong + 1))
}

# Compares a file with the lines of standard input, and shows the first one that differs.
#
#     compare WHAT FILE
compare() {
    diff -a - "$2" >difference || complain "$1: $(sed -n 2p difference)"
}

# Runs a script into the files `written` and `said`.
#
#     ask WANTED-STATUS SCRIPT WORD..
ask() {
    local wanted=$1 status=0
    shift
    "$folder/$1" "${@:2}" >written 2>said || status=$?
    [ "$status" = "$wanted" ] || complain "$*: wanted status $wanted, got $status"
}

# The state of version 2 that a run leaves, where a path and a root have blanks. The items are those of an answer of version 1.
write_states() {
    local a b none
    a=$(printf a | sha256sum | cut -c 1-64)
    b=$(printf b | sha256sum | cut -c 1-64)
    none=$(printf '' | sha256sum | cut -c 1-64)
    cat >given <<'LINES'
hubsync state 1
replica /hub/
file - empty
file 61 same name
file 61 to
dir was dir
file 62 was dir/b
file 62 was file
replica /hub same
file 61 name
archive /hub
with /hub same
dir new dir
end
LINES
    cat >left <<LINES
safe
job to /hub empty finished
to /hub empty
to /hub new dir
to /hub same name
skip Conflict other
to /hub to
to /hub was dir
to /hub was file
hubsync state 2
blob $a 61
blob $b 62
blob $none -
replica /hub
file ${b^^} empty
dir new dir
file $a same name
file $none was dir
dir was file
replica /hub same
file $b name
archive /hub
with /hub same
file $a to
end
LINES
}

# The items of a run from version 1 to version 2, and those of a run from what it left to what it was given.
try_items() {
    write_states
    ask 0 ../tools/items given <left
    compare 'items of two states' written <<'LINES'
safe
job to /hub empty finished
replace /hub empty
create /hub new dir
replace /hub same name
skip Conflict other
delete /hub to
replace /hub was dir
replace /hub was file
LINES
    cp written forward
    { printf '%s\n' '%profile p' 'root = /hub' 'root = /hub same' '%state'; sed '1,/^skip/d; /^to /d' left; } >bundle
    { sed '/^hubsync state/,$d' left; cat given; } >answer
    ask 0 ../tools/items bundle <answer
    sed 's/^create/CREATE/; s/^delete/create/; s/^CREATE/delete/' forward >backward
    compare 'items of a bundle of version 2' written <backward
    ask 1 ../tools/items given <answer
    ask 1 ../tools/items nope <answer
    echo 'fault: no state' >answer
    ask 0 ../tools/items given <answer
    compare 'an answer without a state' written <answer
    ask 2 ../tools/items <answer
}

# The archive of an earlier state of version 2.
try_archive() {
    mkdir hub
    sed -n '/^hubsync state /,$p' left >old
    ask 0 ../tools/state-of-folder --archives old hub
    grep -v '^replica ' written >archive
    compare 'an archive of version 2' archive <<LINES
hubsync state 2
archive /hub
with /hub same
file $(printf a | sha256sum | cut -c 1-64) to
end
LINES
}

# The items of an example, asked of the program.
try_run() {
    "$program" run <"$folder/star.bundle" >answer 2>/dev/null
    ask 0 ../tools/items "$folder/star.bundle" <answer
    grep -v '^job ' written >items
    compare 'items of star.bundle' items <<'LINES'
safe
replace /srv/hub docs/report.txt
create /srv/hub plans/next-year.txt
delete /srv/hub photos/sea.jpg
replace /srv/s4 lists/members.txt
LINES
}

# What ./install puts below a folder, twice, and that nothing of it is left after --uninstall.
try_install() {
    ask 0 ../install --prefix "$room/local"
    ask 0 ../install --prefix "$room/local"
    cmp "$folder/../dist/hubsync" local/bin/hubsync || complain 'another program was installed'
    (cd local && find . -type f | LC_ALL=C sort) >installed
    compare 'what is installed' installed <<'LINES'
./bin/hubsync
./bin/unison-when-free
./share/bash-completion/completions/hubsync
./share/fish/vendor_completions.d/hubsync.fish
./share/hubsync/items
./share/hubsync/state-of-folder
./share/hubsync/verify.py
./share/man/man1/hubsync.1
./share/zsh/site-functions/_hubsync
LINES
    mkdir unison
    printf '%s\n' 'root = /srv/hub' 'root = /srv/desk' 'path = docs' >unison/desk.prf
    local/share/hubsync/state-of-folder unison >state || complain 'an installed script fails'
    local/bin/unison-when-free --only-check unison || complain 'an installed tool fails'
    echo mine >local/share/man/man1/other.1
    ask 0 ../install --uninstall --prefix "$room/local"
    (cd local && find . -type f) >installed
    compare 'what is left' installed <<<./share/man/man1/other.1
    ask 2 ../install --prefix
    ask 2 ../install local
    rm -R local unison state
}

if [ ! -x "$program" ]; then
    echo "scripts: there is no program at $program"
    exit 1
fi
room=$(mktemp -d)
trap 'rm -rf "$room"' EXIT
cd -P "$room"
try_items
try_archive
try_run
try_install
[ "$wrong" = 0 ]
