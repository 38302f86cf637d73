#!/usr/bin/env bash
# Asks the program about folders of profiles for Unison: which files are profiles, what they include, and paths for roots on other
# machines. ./test calls this script.
#
#     examples/folders.sh [PROGRAM]
#
# PROGRAM is the built program (crates/hubsync/out/hubsync if left out). Standard output, standard error and the status of each call are
# compared. A line is printed for each that is wrong. The status is 1 if there was one, else 0.
set -euo pipefail
shopt -s lastpipe # so that what is wrong is counted behind a pipe, too
if [ "${1:-}" = --help ]; then
    sed -n '2,/^set /{ /^#/s/^# \{0,1\}//p }' "${BASH_SOURCE[0]}"
    exit 0
fi
folder=$(dirname "$(readlink -f "${BASH_SOURCE[0]}")")
program=$(readlink -m -- "${1:-$folder/../crates/hubsync/out/hubsync}")
asked=0
wrong=0
# what is said below a yes for Unison, and below an overlap or a breach
assumed='hubsync: for Unison 2.51 to 2.53 with -batch and no preference on its command line, where only these runs write,
hubsync: no symbolic link is followed, each folder and host has one name, names differ as their bytes do,
hubsync: and the folders above path lines exist'
# the same where names fold, and what is said above it
folds='hubsync: names fold by ignorecase, fat, folds-names or a drive of Windows: Docs and docs are one, and lines are shown as Unison folds them'
assumed_of_folded=${assumed/names differ as their bytes do,/no name folds to nothing or to dots,$'\n'hubsync: no disk takes two names for one that Unison takes for two, macOS copies no resource forks (rsrc = false),}
wider='hubsync: more counts with --unison than may happen: compare the answer without it'
lines='hubsync: run one after the other, or add these lines, which hold for Unison too:'

complain() {
    echo "folders: $*"
    wrong=$((wrong + 1))
}

# Compares a file with the lines of standard input, and shows the first one that differs.
#
#     compare WHAT FILE
compare() {
    diff -a - "$2" >"$room/difference" || complain "$1: $(sed -n '2{p;q}' "$room/difference")"
}

# Asks the program, and compares its answer with the lines of standard input: those that begin with `hubsync: ` are on standard error,
# and all others on standard output.
#
#     ask WANTED-STATUS WORD..
ask() {
    local wanted=$1 status=0
    shift
    asked=$((asked + 1))
    cat >"$room/wanted"
    "$program" "$@" >"$room/written" 2>"$room/said" </dev/null || status=$?
    [ "$status" = "$wanted" ] || complain "$*: wanted status $wanted, got $status"
    { grep -v '^hubsync: ' "$room/wanted" || true; } | compare "$*: the answer" "$room/written"
    { grep '^hubsync: ' "$room/wanted" || true; } | compare "$*: standard error" "$room/said"
}

# Writes a file with these lines, and its folder if that isn't there.
#
#     put FILE LINE..
put() {
    mkdir -p "$(dirname "$1")"
    printf '%s\n' "${@:2}" >"$1"
}

# Writes a profile of the hub and a spoke that has the profile's name. Its further lines begin at line 3.
#
#     put_profile FILE LINE..
put_profile() {
    put "$1" 'root = /srv/hub' "root = /srv/$(basename "$1" .prf)" "${@:2}"
}

# Each form of a line that includes a file, by what the file has: one line that is refused.
try_forms() {
    put forms/common 'follow = Path common'
    put forms/common.prf 'follow = Path common.prf'
    put forms/part.prf 'follow = Path part.prf' 'include common'
    put 'forms/with blank.prf' 'follow = Path blank'
    put forms/below/file 'follow = Path below' 'include common'
    put_profile forms/docs.prf 'include common' 'include   part  ' 'source common.prf' 'include? with\ blank' 'source? part' \
        'include? none' 'source below/file' '#include none' 'path = include none' $'include\tnone'
    ask 2 check --unison forms <<LINES
fault: profile docs line 4: UnknownPreference follow
hubsync: forms/common line 1: follow = Path common
hubsync: hubsync has no answer for a profile with this line: let it run by itself, when no other profile runs, also by hand
hubsync: forms/part.prf line 1: follow = Path part.prf
hubsync: hubsync has no answer for a profile with this line: let it run by itself, when no other profile runs, also by hand
hubsync: forms/common.prf line 1: follow = Path common.prf
hubsync: hubsync has no answer for a profile with this line: let it run by itself, when no other profile runs, also by hand
hubsync: forms/with blank.prf line 1: follow = Path blank
hubsync: hubsync has no answer for a profile with this line: let it run by itself, when no other profile runs, also by hand
hubsync: forms/below/file line 1: follow = Path below
hubsync: hubsync has no answer for a profile with this line: let it run by itself, when no other profile runs, also by hand
hubsync: forms/docs.prf line 12: "include\\tnone"
hubsync: write that file's lines in its place; in a .prf file, with --unison, one space follows include
LINES
    ask 2 check --unison forms/docs.prf <<LINES
fault: profile docs line 4: UnknownPreference follow
hubsync: forms/common line 1: follow = Path common
hubsync: hubsync has no answer for a profile with this line: let it run by itself, when no other profile runs, also by hand
hubsync: forms/part.prf line 1: follow = Path part.prf
hubsync: hubsync has no answer for a profile with this line: let it run by itself, when no other profile runs, also by hand
hubsync: forms/common.prf line 1: follow = Path common.prf
hubsync: hubsync has no answer for a profile with this line: let it run by itself, when no other profile runs, also by hand
hubsync: forms/with blank.prf line 1: follow = Path blank
hubsync: hubsync has no answer for a profile with this line: let it run by itself, when no other profile runs, also by hand
hubsync: forms/below/file line 1: follow = Path below
hubsync: hubsync has no answer for a profile with this line: let it run by itself, when no other profile runs, also by hand
hubsync: forms/docs.prf line 12: "include\\tnone"
hubsync: write that file's lines in its place; in a .prf file, with --unison, one space follows include
LINES
    (
        cd forms
        ask 2 rounds --unison docs.prf <<LINES
fault: profile docs line 4: UnknownPreference follow
hubsync: common line 1: follow = Path common
hubsync: hubsync has no answer for a profile with this line: let it run by itself, when no other profile runs, also by hand
hubsync: part.prf line 1: follow = Path part.prf
hubsync: hubsync has no answer for a profile with this line: let it run by itself, when no other profile runs, also by hand
hubsync: common.prf line 1: follow = Path common.prf
hubsync: hubsync has no answer for a profile with this line: let it run by itself, when no other profile runs, also by hand
hubsync: with blank.prf line 1: follow = Path blank
hubsync: hubsync has no answer for a profile with this line: let it run by itself, when no other profile runs, also by hand
hubsync: below/file line 1: follow = Path below
hubsync: hubsync has no answer for a profile with this line: let it run by itself, when no other profile runs, also by hand
hubsync: docs.prf line 12: "include\\tnone"
hubsync: write that file's lines in its place; in a .prf file, with --unison, one space follows include
LINES
    )
}

# Files that are no profiles: without a root, with another ending, or included by another one. That one has the roots of two.
try_parts() {
    put parts/default.prf
    put parts/comment.prf '# root = /srv/hub' 'roots = 1' 'path = docs'
    put parts/notes.txt 'root = /srv/hub' 'root = /srv/notes'
    put parts/base.prf 'root = /srv/hub' 'include more'
    put parts/more 'root = /srv/desk'
    put parts/more.prf 'path = docs' 'follow = Path docs'
    put parts/docs.prf 'include base' 'path = docs'
    put parts/photos.prf 'path = photos' 'source? base.prf'
    put parts/tab.prf $' root\t= /srv/hub' 'root= /srv/tab' 'path = tab'
    ask 0 rounds --unison parts <<LINES
rounds 2
at least 2
round 1 docs
round 1 tab
round 2 photos
hubsync: note: docs and photos have the same two roots
hubsync: note: Unison locks the archive of two roots: don't run these profiles at once
$assumed
hubsync: note: parts/base.prf is no profile here, since parts/docs.prf includes it: name both files to ask about both
hubsync: note: parts/base.prf is no profile here, since parts/photos.prf includes it: name both files to ask about both
hubsync: note: parts/comment.prf sets no root: left out
hubsync: note: parts/more.prf sets no root: left out
LINES
    put_profile parts/z.prf 'path = docs/old'
    ask 1 check --unison parts/ <<LINES
overlap: docs writes docs at /srv/hub, z reaches docs/old
hubsync: docs (parts/docs.prf line 2): path = docs
hubsync: z (parts/z.prf line 3): path = docs/old
$lines
hubsync: docs: ignore = Path docs/old
hubsync: docs: noupdatepartial = Path docs -> /srv/hub
hubsync: docs: nocreationpartial = Path docs -> /srv/hub
hubsync: docs then no longer synchronizes docs/old
$wider
hubsync: without --unison: overlap: docs writes docs at /srv/hub, z reaches docs/old
hubsync: note: parts/base.prf is no profile here, since parts/docs.prf includes it: name both files to ask about both
hubsync: note: parts/base.prf is no profile here, since parts/photos.prf includes it: name both files to ask about both
hubsync: note: parts/comment.prf sets no root: left out
hubsync: note: parts/more.prf sets no root: left out
LINES
    ask 1 clashes --unison parts/base.prf parts/photos.prf <<LINES
overlap: base writes photos at /srv/hub, photos reaches photos
overlap: base writes photos at /srv/desk, photos reaches photos
overlap: base writes photos at archive of /srv/hub and /srv/desk, photos reaches photos
overlap: photos writes photos at /srv/hub, base reaches photos
overlap: photos writes photos at /srv/desk, base reaches photos
overlap: photos writes photos at archive of /srv/hub and /srv/desk, base reaches photos
same archive: base and photos have the roots /srv/hub and /srv/desk
hubsync: base has no line path, so it has all of its roots
hubsync: photos (parts/photos.prf line 1): path = photos
hubsync: run one after the other: Unison has one archive for both, and two runs at once bring deleted files back
$wider
hubsync: without --unison: overlap: base writes photos at /srv/hub, photos reaches photos
LINES
}

# Files that have the ending of a profile and set no root: one that was meant as a profile has a note, and one that says nothing or that
# another one includes has none.
try_rootless() {
    put rootless/common 'root = /srv/hub' 'root = /srv/p3'
    put rootless/default.prf '# Unison preferences file'
    put rootless/empty.prf $'\r' $' \t# root = /srv/hub' ''
    put_profile rootless/docs.prf 'include shared' 'path = docs'
    put rootless/shared.prf 'ignore = Name *.tmp'
    ask 0 check --unison --strict rootless <<LINES
safe
$assumed
LINES
    put rootless/blank.prf ' include common'
    put rootless/tab.prf $'include\tcommon'
    put rootless/user.prf 'include shared' 'path = user'
    ask 0 check --unison rootless <<LINES
safe
$assumed
hubsync: note: rootless/blank.prf sets no root: left out
hubsync: note: rootless/tab.prf sets no root: left out
hubsync: note: rootless/user.prf sets no root: left out
LINES
    ask 1 rounds --unison --strict rootless/ <<LINES
rounds 1
at least 1
round 1 docs
$assumed
hubsync: note: rootless/blank.prf sets no root: left out
hubsync: note: rootless/tab.prf sets no root: left out
hubsync: note: rootless/user.prf sets no root: left out
LINES
    rm rootless/docs.prf rootless/{blank,tab,user}.prf
    ask 0 check --unison rootless <<LINES
safe
hubsync: note: the input has no profile, so nothing was checked
$assumed
hubsync: note: rootless/shared.prf sets no root: left out
LINES
    put rootless/user.prf 'include? none'
    put rootless/lost.prf 'include none'
    ask 2 check --unison rootless <<LINES
fault: rootless/lost.prf: NoFile
hubsync: rootless/lost.prf, line 1 names a file that isn't in the profile's folder: include none
LINES
}

# All profiles have 16 MiB at most, each with what it includes. Files of a folder that are no profiles count while it is read.
try_long() {
    local long='hubsync: note: the input is longer than what notes are made of: 1 MiB and 50,000 lines'
    put_profile long/a.prf 'include part' 'path = a'
    put_profile long/b.prf 'include part' 'path = b'
    # each has 54 bytes beside those of the part, where the line that includes it has two more
    { printf '#' && head -c 8388552 /dev/zero | tr '\0' x && echo; } >long/part
    ask 0 check --unison long <<LINES
safe
$long
$assumed
LINES
    ask 0 check --unison long/b.prf long/a.prf <<LINES
safe
$long
$assumed
LINES
    put long/none.prf '#'
    ask 2 check --unison long <<LINES
fault: long/none.prf: TooLong
hubsync: with long/none.prf the profiles have more than 16 MiB, included lines each time
LINES
    rm long/none.prf
    echo >>long/part
    ask 2 check --unison long <<LINES
fault: long/b.prf: TooLong
hubsync: with long/b.prf the profiles have more than 16 MiB, included lines each time
LINES
    ask 2 rounds --unison long/b.prf long/a.prf <<LINES
fault: long/a.prf: TooLong
hubsync: with long/a.prf the profiles have more than 16 MiB, included lines each time
LINES
    put_profile long/c.prf 'include none'
    ask 2 clashes --unison long/a.prf long/b.prf long/c.prf <<LINES
fault: long/b.prf: TooLong
hubsync: with long/b.prf the profiles have more than 16 MiB, included lines each time
LINES
    put long/part 'source none'
    ask 2 check --unison long/b.prf <<LINES
fault: long/part: NoFile
hubsync: long/part, line 1 names a file that isn't in the profile's folder: source none
LINES
}

# Small files that include each other may be a long profile.
try_included_often() {
    local each name number
    for each in 'a b' 'b c' 'c d' 'd e'; do
        name=${each#* }
        put "often/${each% *}" "include $name" "include $name" "include $name" "include $name" "include $name" "include $name" \
            "include $name" "include $name" "include $name" "include $name"
    done
    put often/e '# a comment'
    for ((number = 100; number < 200; number++)); do
        put_profile "often/$number.prf" 'include a' "path = $number"
    done
    ask 2 check --unison often <<LINES
fault: often/166.prf: TooLong
hubsync: with often/166.prf the profiles have more than 16 MiB, included lines each time
LINES
}

# A file that is missing.
try_missing() {
    put_profile missing/maybe/docs.prf 'include? none' 'source? none.prf' 'path = a'
    ask 0 check --unison missing/maybe <<LINES
safe
$assumed
LINES
    put_profile missing/surely/docs.prf 'path = a' 'include none'
    ask 2 check --unison missing/surely <<LINES
fault: missing/surely/docs.prf: NoFile
hubsync: missing/surely/docs.prf, line 4 names a file that isn't in the profile's folder: include none
LINES
    put_profile missing/source/docs.prf 'include part'
    put missing/source/part 'path = a' 'source docs2'
    put missing/source/docs2.prf
    ask 2 check --unison missing/source/docs.prf <<LINES
fault: missing/source/part: NoFile
hubsync: missing/source/part, line 2 names a file that isn't in the profile's folder: source docs2
LINES
    ask 2 check --unison missing/docs.prf <<LINES
fault: missing/docs.prf: ReadFailed
hubsync: missing/docs.prf can't be read: No such file or directory (os error 2)
LINES
    ask 2 check --unison missing/none <<LINES
fault: missing/none: ReadFailed
hubsync: missing/none can't be read: No such file or directory (os error 2)
LINES
    ask 2 clashes --unison missing/maybe/docs.prf missing/source/part <<LINES
fault: missing/source/part: ReadFailed
hubsync: missing/source/part can't be read: Not a directory (os error 20)
LINES
}

# Lines that can't be followed for another reason.
try_lines() {
    local i
    put cycles/self.prf 'root = /a' 'include self'
    ask 2 check --unison cycles <<LINES
fault: cycles/self.prf: Cycle
hubsync: cycles/self.prf, line 2 includes a file that includes this one: Unison's stack overflows
LINES
    put cycle/docs.prf 'include one'
    put cycle/one 'path = a' 'source two'
    put cycle/two 'include? one'
    ask 2 check --unison cycle/ <<LINES
fault: cycle/two: Cycle
hubsync: cycle/two, line 1 includes a file that includes this one: Unison's stack overflows
LINES
    put names/two.prf 'include one two'
    ask 2 check --unison names <<LINES
fault: names/two.prf: BadInclude
hubsync: names/two.prf, line 1 takes one file's name, with \\ before each blank in it
LINES
    put names/two.prf '' 'source? '
    ask 2 check --unison names <<LINES
fault: names/two.prf: BadInclude
hubsync: names/two.prf, line 2 takes one file's name, with \\ before each blank in it
LINES
    for i in {1..100}; do
        put "deep/$i" "source $((i + 1))"
    done
    put_profile deep/docs.prf 'source 3'
    put deep/101 'path = a'
    ask 0 check --unison deep/docs.prf <<LINES
safe
$assumed
LINES
    put_profile deep/docs.prf 'source 2'
    ask 2 check --unison deep/docs.prf <<LINES
fault: deep/100: TooDeep
hubsync: deep/100, line 1 stands in too many files that include each other: 100 may be open
LINES
}

# What can't be read: a folder in the place of a file, also of one that may be missing, and a file without the right.
try_unreadable() {
    put_profile unreadable/in/docs.prf 'include? folder'
    mkdir unreadable/in/folder
    ask 2 check --unison unreadable/in <<LINES
fault: unreadable/in/folder: ReadFailed
hubsync: unreadable/in/folder can't be read: Is a directory (os error 21)
LINES
    mkdir -p unreadable/own/docs.prf
    ask 2 check --unison unreadable/own <<LINES
fault: unreadable/own/docs.prf: ReadFailed
hubsync: unreadable/own/docs.prf can't be read: Is a directory (os error 21)
LINES
    ask 2 check --unison unreadable/own/docs.prf <<LINES
fault: unreadable/own/docs.prf: ReadFailed
hubsync: unreadable/own/docs.prf can't be read: Is a directory (os error 21)
LINES
    put_profile unreadable/link/docs.prf 'path = a'
    ln -s nowhere unreadable/link/link.prf
    ask 2 check --unison unreadable/link <<LINES
fault: unreadable/link/link.prf: ReadFailed
hubsync: unreadable/link/link.prf is in the folder, but there is no such file: is it a link?
LINES
    put_profile unreadable/right/docs.prf 'include? part'
    put unreadable/right/part 'path = a'
    chmod 000 unreadable/right/part
    if [ -r unreadable/right/part ]; then
        echo 'a file without the right to read it was not tried: this user reads all files'
    else
        ask 2 check --unison unreadable/right <<LINES
fault: unreadable/right/part: ReadFailed
hubsync: unreadable/right/part can't be read: Permission denied (os error 13)
LINES
        chmod 000 unreadable/right
        ask 2 check --unison unreadable/right <<LINES
fault: unreadable/right: ReadFailed
hubsync: unreadable/right can't be read: Permission denied (os error 13)
LINES
        chmod 700 unreadable/right
    fi
}

# How the texts of files are cut: byte order marks, CRs, a `%` at the start of a line, no line end at the end, names with blanks.
try_texts() {
    mkdir -p texts
    printf '\xef\xbb\xbfroot = /srv/hub\r\nroot = /srv/desk\r\ninclude part\r\npath = a\r\n%%rules\r\npath = b' >'texts/my docs.prf'
    printf '\xef\xbb\xbf# a comment\r\nforce = /srv/hub\r\n%%state' >texts/part
    ask 2 check --unison texts <<LINES
fault: profile my docs line 6: NoEquals
hubsync: texts/part line 3:  %state
hubsync: there is no = in it: a line is NAME = VALUE, or begins with #
hubsync: texts/my docs.prf line 5:  %rules
hubsync: there is no = in it: a line is NAME = VALUE, or begins with #
LINES
    printf '\xef\xbb\xbfroot = /srv/hub\r\nroot = /srv/desk\r\ninclude part\r\npath = a\r\n%%x = rules\r\npath = b' >'texts/my docs.prf'
    printf '\xef\xbb\xbf# a comment\r\nforce = /srv/hub\r\n' >texts/part
    ask 2 check --unison 'texts/my docs.prf' <<LINES
fault: profile my docs line 7: UnknownPreference %x
hubsync: texts/my docs.prf line 5:  %x = rules
hubsync: no Unison from 2.51 to 2.53 has a preference of this name that hubsync knows
LINES
    printf '\xef\xbb\xbfroot = /srv/hub\r\nroot = /srv/desk\r\ninclude part\r\npath = a\r\npath = b' >'texts/my docs.prf'
    put_profile texts/other.prf 'path = b/c'
    ask 1 check --unison texts <<LINES
overlap: other writes b/c at /srv/hub, my docs reaches b/c
hubsync: my docs (texts/my docs.prf line 5): path = b
hubsync: other (texts/other.prf line 3): path = b/c
hubsync: let my docs run by itself, when no other profile runs
hubsync: or add these lines, which hold for Unison too:
hubsync: my docs: ignore = Path b/c
hubsync: my docs then no longer synchronizes b/c
$wider
hubsync: without --unison: overlap: other writes b/c at /srv/hub, my docs reaches b/c
LINES
    printf 'root = /srv/hub\nroot = /srv/x\npath = \xe9\n' >texts/latin.prf
    ask 2 check --unison texts <<LINES
fault: profile latin line 0: NotUtf8
hubsync: texts/latin.prf line 3 is not UTF-8 at byte 8
hubsync: save the file as UTF-8
LINES
}

# A profile takes in 1,000 files, and no more. A fault of an earlier line comes first, also of a file that a later one asks for.
try_many() {
    put_profile many/docs.prf
    local number
    for ((number = 1; number <= 1000; number++)); do
        echo "source $number" >>many/docs.prf
        : >"many/$number"
    done
    ask 0 check --unison many/docs.prf <<LINES
safe
$assumed
LINES
    echo 'source more' >>many/docs.prf
    : >many/more
    ask 2 check --unison many/docs.prf <<LINES
fault: many/docs.prf: TooManyFiles
LINES
    put_profile many/first.prf 'source none' 'source folder'
    mkdir many/folder
    ask 2 check --unison many/first.prf <<LINES
fault: many/first.prf: NoFile
hubsync: many/first.prf, line 3 names a file that isn't in the profile's folder: source none
LINES
    put_profile many/second.prf 'source inner' 'source none'
    put many/inner 'source folder'
    ask 2 check --unison many/second.prf <<LINES
fault: many/folder: ReadFailed
hubsync: many/folder can't be read: Is a directory (os error 21)
LINES
    put_profile many/third.prf 'source round' 'source folder'
    put many/round 'source round'
    ask 2 check --unison many/third.prf <<LINES
fault: many/round: Cycle
hubsync: many/round, line 1 includes a file that includes this one: Unison's stack overflows
LINES
}

# All lines that don't count, and all that are refused.
try_verbose() {
    put_profile verbose/docs.prf 'prefer = newer' 'maxsizethreshold = 5' 'path = a' 'mountpoint = x'
    ask 0 check --unison --verbose verbose <<LINES
safe
$assumed
hubsync: lines that don't count, as Unison does no less without them: 3, first verbose/docs.prf line 3: prefer = newer
hubsync: nor does verbose/docs.prf line 4: maxsizethreshold = 5
hubsync: nor does verbose/docs.prf line 6: mountpoint = x
LINES
    put_profile verbose/refused.prf 'follow = Name '{a,b,c,d,e,f,g,h,i,j,k,l}
    ask 2 rounds --unison verbose/refused.prf --verbose <<LINES
fault: profile refused line 3: UnknownPreference follow
$(for number in {3..14}; do
        echo "hubsync: verbose/refused.prf line $number: $(sed -n "${number}p" verbose/refused.prf)"
        echo 'hubsync: hubsync has no answer for a profile with this line: let it run by itself, when no other profile runs, also by hand'
    done)
LINES
    ask 2 rounds --unison verbose/refused.prf <<LINES
fault: profile refused line 3: UnknownPreference follow
$(for number in {3..13}; do
        echo "hubsync: verbose/refused.prf line $number: $(sed -n "${number}p" verbose/refused.prf)"
        echo 'hubsync: hubsync has no answer for a profile with this line: let it run by itself, when no other profile runs, also by hand'
    done)
hubsync: more lines that are refused: 1: --verbose lists them
LINES
}

# Paths for roots on other machines.
try_hosts() {
    put remote/table '# hosts' 'desk /hosts/other' 'anna@desk /hosts/desk/' $'\tlaptop~  /home/anna b' 'laptop /' ''
    put remote/unison/desk.prf 'root = /srv/hub' 'root = ssh://anna@Desk:22//srv/' 'force = ssh://anna@Desk:22//srv/' \
        'noupdatepartial = Path a -> ssh://anna@desk//srv' 'path = desk'
    put remote/unison/other.prf 'root = /srv/hub' 'root = socket://desk:4000//data' 'path = other'
    put remote/unison/home.prf 'include home' 'path = home'
    put remote/unison/home 'root = /srv/hub' 'root = ssh://bob@laptop/docs'
    put remote/unison/top.prf 'root = /srv/hub' 'root = ssh://laptop//top' 'path = top'
    ask 0 clashes --unison --dot remote/unison --hosts remote/table <<LINES
graph clashes {
    graph [rankdir = LR];
    node [fontname = "sans-serif"];
    edge [fontname = "sans-serif"];
    "profile desk" [shape = box, label = "desk"];
    "profile desk" -- "root /srv/hub" [color = gray50];
    "profile desk" -- "root /hosts/desk/srv" [color = gray50];
    "profile home" [shape = box, label = "home"];
    "profile home" -- "root /srv/hub" [color = gray50];
    "profile home" -- "root /home/anna b/docs" [color = gray50];
    "profile other" [shape = box, label = "other"];
    "profile other" -- "root /srv/hub" [color = gray50];
    "profile other" -- "root /hosts/other/data" [color = gray50];
    "profile top" [shape = box, label = "top"];
    "profile top" -- "root /srv/hub" [color = gray50];
    "profile top" -- "root /top" [color = gray50];
    "root /home/anna b/docs" [shape = folder, label = "/home/anna b/docs"];
    "root /hosts/desk/srv" [shape = folder, label = "/hosts/desk/srv"];
    "root /hosts/other/data" [shape = folder, label = "/hosts/other/data"];
    "root /srv/hub" [shape = folder, label = "/srv/hub"];
    "root /top" [shape = folder, label = "/top"];
}
$assumed
LINES
    ask 0 check --unison remote/unison --hosts remote/table <<LINES
safe
$assumed
LINES
    local root
    for root in ssh://bob@DESK//data/ /hosts/other/data; do
        put remote/rules "root = $root" 'nolose = BelowPath other'
        ask 1 check --unison remote/unison --hosts remote/table --rules remote/rules <<LINES
breach: other may delete other at /hosts/other/data, rule 0
hubsync: %rules (remote/rules line 2): nolose = BelowPath other
hubsync: other (remote/unison/other.prf line 3): path = other
hubsync: these lines would keep the rule, for Unison too:
hubsync: other: nodeletion = socket://desk:4000//data
$wider
hubsync: without --unison: breach: other may delete other at /hosts/other/data, rule 0
LINES
    done
    put remote/rules 'root = ssh://anna@desk//srv' 'nolose = BelowPath desk'
    ask 0 check --unison remote/unison --hosts remote/table --rules remote/rules <<LINES
safe
$assumed
LINES
    ask 2 check --unison remote/unison --hosts remote/table --rules remote/rules/none <<LINES
fault: remote/rules/none: ReadFailed
hubsync: remote/rules/none can't be read: Not a directory (os error 20)
LINES
    put remote/folding 'folds-names desk /hosts/other' 'folds-names  anna@desk /hosts/desk/' 'laptop~  /home/anna b' $'folds-names\tlaptop /'
    ask 0 check --unison remote/unison --hosts remote/folding <<LINES
safe
$folds
$assumed_of_folded
LINES
    put remote/folding 'folds-names desk'
    ask 2 check --unison remote/unison --hosts remote/folding <<LINES
fault: remote/folding: BadHost
hubsync: remote/folding, line 1 isn't HOST PATH, as: build /hosts/build
LINES
    ask 2 check --unison remote/unison <<LINES
fault: profile desk line 2: BadPath RemoteRoot
hubsync: remote/unison/desk.prf line 2: root = ssh://anna@Desk:22//srv/
hubsync: it is on another machine: the table below has it
hubsync: remote/unison/desk.prf line 3: force = ssh://anna@Desk:22//srv/
hubsync: it is on another machine: the table below has it
hubsync: remote/unison/desk.prf line 4: noupdatepartial = Path a -> ssh://anna@desk//srv
hubsync: it is on another machine: the table below has it
hubsync: remote/unison/home line 2: root = ssh://bob@laptop/docs
hubsync: it is on another machine: the table below has it
hubsync: remote/unison/other.prf line 2: root = socket://desk:4000//data
hubsync: it is on another machine: the table below has it
hubsync: remote/unison/top.prf line 2: root = ssh://laptop//top
hubsync: it is on another machine: the table below has it
hubsync: add --hosts FILE, where FILE has these lines:
hubsync:     bob@laptop~ /hosts/laptop/home/bob
hubsync:     desk /hosts/desk
hubsync:     laptop /hosts/laptop
hubsync: behind HOST~ stands the home there: write where it is, if it is elsewhere
LINES
    put remote/unison/lacks.prf 'root = /srv/hub' 'root = ssh://desk/docs' 'path = lacks'
    ask 2 rounds --unison remote/unison --hosts remote/table <<LINES
fault: profile lacks line 2: BadPath RemoteRoot
hubsync: remote/unison/lacks.prf line 2: root = ssh://desk/docs
hubsync: it is on another machine: the table below has it
hubsync: add these lines to the table of --hosts:
hubsync:     desk~ /hosts/desk/home/NAME
hubsync: behind HOST~ stands the home there: write where it is, if it is elsewhere
LINES
    put remote/names/docs.prf 'root = /srv/hub' 'root = ssh://Desk//srv/docs' 'path = docs'
    put remote/names/old.prf 'root = /srv/hub' 'root = socket://bob@dESK:4000//srv/docs/' 'path = old'
    ask 1 check --unison remote/names --hosts remote/table <<LINES
same archive: docs and old have the roots /srv/hub and /hosts/other/srv/docs
hubsync: run one after the other: Unison has one archive for both, and two runs at once bring deleted files back
LINES
    put remote/names/old.prf 'root = //srv/hub' 'root = ssh://desk//srv/docs' 'path = old'
    ask 2 check --unison remote/names --hosts remote/table <<LINES
fault: profile old line 1: BadPath RemoteRoot
hubsync: remote/names/old.prf line 1: root = //srv/hub
hubsync: to Unison it is a path of this machine: write /srv/hub
LINES
    put remote/names/old.prf 'root = file:///srv/hub' 'root = ssh://desk//srv/docs' 'path = old'
    ask 2 check --unison remote/names --hosts remote/table <<LINES
fault: profile old line 1: BadPath RemoteRoot
hubsync: remote/names/old.prf line 1: root = file:///srv/hub
hubsync: Unison takes it for the relative path srv/hub: write the absolute path
LINES
    put remote/bad '# hosts' '' 'desk hosts/desk'
    ask 2 check --unison remote/unison --hosts remote/bad <<LINES
fault: remote/bad: BadHost
hubsync: remote/bad, line 3 isn't HOST PATH, as: build /hosts/build
LINES
    put remote/twice 'desk /hosts/desk' 'desk~ /hosts/desk/home' 'DESK /hosts/other'
    ask 2 check --unison remote/unison --hosts remote/twice <<LINES
fault: remote/twice: SecondHost
hubsync: remote/twice, line 3 is a second one for its host
LINES
    ask 2 check --unison remote/unison --hosts remote/none <<LINES
fault: remote/none: ReadFailed
hubsync: remote/none can't be read: No such file or directory (os error 2)
LINES
}

# A folder of profiles in a root: Unison keeps its archives there, and would synchronize them.
try_archives() {
    local here
    here=$(pwd -P)
    local folder="hubsync: $here/archives/home/.unison is in a root of"
    local own='Unison would synchronize its own archives, while it writes them'
    local remedy='hubsync: add ignore = Path .unison, and keep nothing there by a path line'
    put archives/home/.unison/docs.prf "root = $here/archives/home" 'root = /srv/docs'
    ask 2 check --unison archives/home/.unison <<LINES
fault: archives/home/.unison/docs.prf: ArchivesInRoot
$folder archives/home/.unison/docs.prf: $own
$remedy
LINES
    ask 2 plan archives/home/.unison/docs.prf <<LINES
fault: archives/home/.unison/docs.prf: ArchivesInRoot
$folder archives/home/.unison/docs.prf: $own
$remedy
LINES
    (
        cd archives/home/.unison
        ask 2 check --unison docs.prf <<LINES
fault: docs.prf: ArchivesInRoot
$folder docs.prf: $own
$remedy
LINES
        cd ..
        ask 2 rounds --unison ./.unison/../.unison/ <<LINES
fault: ./.unison/../.unison/docs.prf: ArchivesInRoot
$folder ./.unison/../.unison/docs.prf: $own
$remedy
LINES
    )
    put archives/home/more/photos.prf 'root = /srv/hub' 'root = /srv/photos'
    ask 0 check --unison archives/home/more <<LINES
safe
$assumed
LINES
    local each
    for each in 'ignore = Path .unison' 'ignore = Name .*' 'ignore = Name {.unison,x}' 'path = docs' $'ignore = BelowPath .unison\r'; do
        put archives/home/.unison/docs.prf "root = $here/archives/home" 'root = /srv/docs' "$each"
        ask 0 check --unison --strict archives/home/.unison <<LINES
safe
$assumed
LINES
    done
    for each in 'path = .unison/old' 'ignore = Path .unison/x' 'ignore = Path .unison -> x'; do
        put archives/home/.unison/docs.prf "root = $here/archives/home" 'root = /srv/docs' 'ignorenot = Path y' "$each"
        ask 2 check --unison archives/home/.unison <<LINES
fault: archives/home/.unison/docs.prf: ArchivesInRoot
$folder archives/home/.unison/docs.prf: $own
$remedy
LINES
    done
    put archives/home/.unison/docs.prf "root = $here/archives/home" 'root = /srv/docs' 'ignore = Path .unison'
    ask 2 check --unison archives/home/.unison archives/home/more <<LINES
fault: archives/home/.unison/docs.prf: ArchivesInRoot
hubsync: $here/archives/home/more is in a root of archives/home/.unison/docs.prf: $own
hubsync: add ignore = Path more, and keep nothing there by a path line
LINES
    put archives/table 'desk /hosts/desk'
    put archives/home/.unison/docs.prf 'root = ssh://desk//home' 'root = /srv/docs'
    ask 0 check --unison --strict archives/home/.unison --hosts archives/table <<LINES
safe
$assumed
LINES
    put archives/home/.unison/docs.prf "root = $here/archives/home/.unison" 'root = /srv/docs' 'ignore = Name *'
    ask 2 check --unison archives/home/.unison <<LINES
fault: archives/home/.unison/docs.prf: ArchivesInRoot
$folder archives/home/.unison/docs.prf: $own
hubsync: it is the root: synchronize another folder
LINES
}

# Operands: folders and files, one twice, a folder without profiles, and files of options beside them.
try_operands() {
    put_profile operands/one/docs.prf 'path = docs'
    put_profile operands/one/photos.prf 'path = photos'
    put_profile operands/two/docs.prf 'path = docs/old'
    put_profile operands/two/music.prf 'path = music'
    mkdir operands/empty
    put operands/rules 'root = /srv/hub' 'nolose = BelowPath photos'
    ask 1 check --unison operands/one operands/two <<LINES
refused: SameName docs
hubsync: give each profile a name of its own: operands/one/docs.prf operands/two/docs.prf
LINES
    ask 0 rounds --unison operands/two/music.prf operands/one/ <<LINES
rounds 1
at least 1
round 1 music
round 1 docs
round 1 photos
$assumed
LINES
    ask 1 check --unison operands/one --rules operands/rules <<LINES
breach: photos may delete photos at /srv/hub, rule 0
hubsync: %rules (operands/rules line 2): nolose = BelowPath photos
hubsync: photos (operands/one/photos.prf line 3): path = photos
hubsync: these lines would keep the rule, for Unison too:
hubsync: photos: nodeletion = /srv/hub
$wider
hubsync: without --unison: breach: photos may delete photos at /srv/hub, rule 0
LINES
    ask 0 check --unison operands/empty <<LINES
safe
hubsync: note: the input has no profile, so nothing was checked
$assumed
LINES
    ask 1 check --unison --strict operands/empty <<LINES
safe
hubsync: note: the input has no profile, so nothing was checked
$assumed
LINES
    ask 0 rounds --unison operands/empty/ <<LINES
rounds 0
at least 0
hubsync: note: the input has no profile, so nothing was checked
$assumed
LINES
    ask 2 check --unison operands/one operands/none operands/rules <<LINES
fault: operands/none: ReadFailed
hubsync: operands/none can't be read: No such file or directory (os error 2)
LINES
    ask 2 check --unison operands/one --rules operands/none <<LINES
fault: operands/none: ReadFailed
hubsync: operands/none can't be read: No such file or directory (os error 2)
LINES
}

# Profiles of other machines: how they are named, where their roots are, which machines can't be asked about, and folders whose names
# have an equals sign.
try_machines() {
    put machines/table 'pc /hosts/pc' 'laptop /hosts/laptop' 'hub /'
    put machines/pc/docs.prf 'root = /home/anna' 'root = ssh://hub//srv/docs' 'path = a' 'force = /home/anna' \
        'nodeletionpartial = Path a/b -> /home/anna'
    put machines/laptop/docs.prf 'root = /home/anna' 'root = ssh://hub//srv/photos' 'path = a'
    ask 0 rounds --unison pc=machines/pc laptop=machines/laptop --hosts machines/table <<LINES
rounds 1
at least 1
round 1 pc=docs
round 1 laptop=docs
$assumed
LINES
    ask 0 import pc=machines/pc laptop=machines/laptop/docs.prf --hosts machines/table <<LINES
%profile pc=docs
root = /hosts/pc/home/anna
root = /srv/docs
path = a
force = /hosts/pc/home/anna
nodeletionpartial = Path a/b -> /hosts/pc/home/anna
%profile laptop=docs
root = /hosts/laptop/home/anna
root = /srv/photos
path = a
$assumed
LINES
    ask 0 plan pc=machines/pc laptop=machines/laptop --hosts machines/table <<LINES
plan 1
profile 1 pc=docs
profile 2 laptop=docs
root 1 /hosts/pc/home/anna
root 1 /srv/docs
root 2 /hosts/laptop/home/anna
root 2 /srv/photos
order 1 2
$assumed
LINES
    put machines/laptop/docs.prf 'root = /home/anna' 'root = ssh://hub//srv/docs' 'path = a'
    ask 1 check --unison pc=machines/pc laptop=machines/laptop --hosts machines/table <<LINES
overlap: pc=docs writes a at /srv/docs, laptop=docs reaches a
hubsync: pc=docs (machines/pc/docs.prf line 3): path = a
hubsync: laptop=docs (machines/laptop/docs.prf line 3): path = a
hubsync: run one after the other, or give one other paths, an ignore or a bar
$wider
hubsync: without --unison: overlap: pc=docs writes a at /srv/docs, laptop=docs reaches a
LINES
    put machines/wrong/docs.prf 'root = /home/anna' 'root = ssh://hub//srv/docs' 'follow = Path a'
    ask 2 check --unison pc=machines/pc laptop=machines/wrong --hosts machines/table <<LINES
fault: profile laptop=docs line 3: UnknownPreference follow
hubsync: machines/wrong/docs.prf line 3: follow = Path a
hubsync: hubsync has no answer for a profile with this line: let it run by itself, when no other profile runs, also by hand
LINES
    ask 2 check --unison pc=machines/pc machines/laptop PC=machines/laptop --hosts machines/table <<LINES
fault: PC=machines/laptop: SecondMachine
hubsync: another operand has this machine: name each machine once, with one folder or file
LINES
    ask 2 check --unison pc=machines/pc <<LINES
fault: pc=machines/pc: UnknownHost
hubsync: add --hosts FILE, where FILE has this line, with the path of its / here:
hubsync:     pc /hosts/pc
LINES
    put machines/homes 'pc~ /hosts/pc/home/anna' 'hub /'
    ask 2 check --unison pc=machines/pc --hosts machines/homes <<LINES
fault: pc=machines/pc: UnknownHost
hubsync: add this line to the table of --hosts, with the path of its / here:
hubsync:     pc /hosts/pc
LINES
    echo '    pc /hosts/pc' >>machines/homes
    ask 0 check --unison pc=machines/pc --hosts machines/homes <<LINES
safe
$assumed
LINES
    ask 0 check --unison pc:22=machines/pc --hosts machines/homes <<LINES
safe
$assumed
LINES
    ask 2 check --unison 'my pc=machines/pc' --hosts machines/homes <<LINES
fault: my pc=machines/pc: UnknownHost
hubsync: no line of a table of hosts names my pc: write a host's name before the =
LINES
    put machines/hub/docs.prf 'root = /srv/docs' 'root = /srv/copy' 'path = a'
    put machines/named 'pc /hosts/pc' 'hub /hosts/hub' 'hub~ /'
    ask 2 check --unison pc=machines/pc machines/hub --hosts machines/named <<LINES
fault: machines/hub: UnknownHost
hubsync: this operand has profiles of this machine, and others name theirs: write HOST= before it, too, where HOST is how roots of the others name this machine,
hubsync: and give HOST the path / in the table of --hosts: by another name of this machine clashes would be missed
LINES
    ask 2 check --unison machines/hub pc=machines/pc <<LINES
fault: machines/hub: UnknownHost
hubsync: this operand has profiles of this machine, and others name theirs: write HOST= before it, too, where HOST is how roots of the others name this machine,
hubsync: and give HOST the path / in a table of --hosts FILE: by another name of this machine clashes would be missed
LINES
    # a host of the table that is neither this machine nor one of an operand may be another name of this machine
    ask 2 check --unison machines/hub pc=machines/pc --hosts machines/table <<LINES
fault: machines/hub: UnknownHost
hubsync: this operand has profiles of this machine, and others name theirs: write HOST= before it, too, where HOST is how roots of the others name this machine,
hubsync: and give HOST the path / in the table of --hosts: by another name of this machine clashes would be missed
LINES
    ask 1 check --unison hub=machines/hub pc=machines/pc --hosts machines/table <<LINES
overlap: hub=docs writes a at /srv/docs, pc=docs reaches a
hubsync: hub=docs (machines/hub/docs.prf line 3): path = a
hubsync: pc=docs (machines/pc/docs.prf line 3): path = a
hubsync: run one after the other, or give one other paths, an ignore or a bar
$wider
hubsync: without --unison: overlap: hub=docs writes a at /srv/docs, pc=docs reaches a
LINES
    put machines/told 'pc /hosts/pc' 'hub /' 'pc~ /hosts/pc/home' 'anna@PC /hosts/anna'
    ask 1 check --unison machines/hub pc=machines/pc --hosts machines/told <<LINES
overlap: docs writes a at /srv/docs, pc=docs reaches a
hubsync: docs (machines/hub/docs.prf line 3): path = a
hubsync: pc=docs (machines/pc/docs.prf line 3): path = a
hubsync: run one after the other, or give one other paths, an ignore or a bar
$wider
hubsync: without --unison: overlap: docs writes a at /srv/docs, pc=docs reaches a
LINES
    put_profile a=b/docs.prf 'path = docs'
    ask 0 rounds --unison ./a=b <<LINES
rounds 1
at least 1
round 1 docs
$assumed
LINES
    ask 0 rounds a=b/docs.prf <<LINES
rounds 1
at least 1
round 1 docs
LINES
    ask 2 rounds --unison a=b --hosts machines/table <<LINES
fault: b: ReadFailed
hubsync: b can't be read: No such file or directory (os error 2)
LINES
    ask 2 rounds --unison a=a=b --hosts machines/table <<LINES
fault: a=a=b: UnknownHost
hubsync: add this line to the table of --hosts, with the path of its / here:
hubsync:     a /hosts/a
LINES
}

# Below an answer about many profiles stand its numbers.
try_totals() {
    local number
    for number in $(seq 10 31); do
        put "totals/p$number.prf" 'root = /srv/hub' "root = /srv/s$number" "path = team$number"
    done
    ask 0 clashes --unison totals <<LINES
safe
$assumed
LINES
    { printf 'rounds 1\nat least 1\n'; printf 'round 1 p%s\n' $(seq 10 31); printf '%s\n' "$assumed" \
        'hubsync: 22 profiles, 231 pairs: none clash; 1 round'; } | ask 0 rounds --unison totals
    put totals/p31.prf 'root = /srv/hub' 'root = /srv/s31' 'path = team30/a'
    ask 1 clashes --unison totals <<LINES
overlap: p30 writes team30 at /srv/hub, p31 reaches team30/a
overlap: p31 writes team30/a at /srv/hub, p30 reaches team30/a
hubsync: p30 (totals/p30.prf line 3): path = team30
hubsync: p31 (totals/p31.prf line 3): path = team30/a
$lines
hubsync: p30: ignore = Path team30/a
hubsync: p30: noupdatepartial = Path team30 -> /srv/hub
hubsync: p30: nocreationpartial = Path team30 -> /srv/hub
hubsync: p30 then no longer synchronizes team30/a
$wider
hubsync: without --unison: overlap: p30 writes team30 at /srv/hub, p31 reaches team30/a
hubsync: 22 profiles, 231 pairs: 1 clashes, in 1 place
LINES
    { printf 'rounds 2\nat least 2\n'; printf 'round 1 p%s\n' $(seq 10 30); echo 'round 2 p31'; printf '%s\n' "$assumed" \
        'hubsync: 22 profiles, 231 pairs: 1 clashes, in 1 place; 2 rounds'; } | ask 0 rounds --unison totals
}

# Names fold by a line, or by the host of a root.
# A drive of Windows is one folder by each of its names, and names fold there. Preferences of Unison 2.53
# don't count.
try_drives() {
    put drives/bob.prf 'root = C:\Users\bob\Docs' 'root = ssh://hub//srv/share' 'path = Bob' 'xattrs = true'
    put drives/eve.prf 'root = c:/Users/eve/' 'root = ssh://hub//srv/share' 'path = bob'
    put drives/table 'hub /hosts/hub'
    ask 1 check --unison drives --hosts drives/table <<LINES
overlap: bob writes bob at /hosts/hub/srv/share, eve reaches bob
$folds
hubsync: lines that don't count, as Unison does no less without them: 1, first drives/bob.prf line 4: xattrs = true
hubsync: bob, line 3 (bundle line 4): path = bob
hubsync: eve, line 3 (bundle line 8): path = bob
hubsync: run one after the other, or give one other paths, an ignore or a bar
hubsync: more counts with --unison than may happen
LINES
    put drives/bob.prf 'root = /cygdrive/c/Users/bob/Docs' 'root = ssh://hub//srv/share' 'path = Bob'
    put drives/eve.prf 'root = c:/Users/eve/' 'root = ssh://hub//srv/share' 'path = eve'
    ask 0 check --unison drives --hosts drives/table <<LINES
safe
$folds
$assumed_of_folded
LINES
}

# Roots that are one folder where names fold, but not as they are spelled, are a fault.
try_spellings() {
    local fault='hubsync: names fold by ignorecase, fat, folds-names or a drive of Windows, and these roots may be one folder, or one may lie in the other: spell it alike in all profiles and rules, or rename one'
    put spellings/one.prf 'root = /srv/Hub' 'root = /srv/s1' 'path = a' 'ignorecase = true'
    put spellings/two.prf 'root = /srv/hub' 'root = /srv/s2' 'path = b'
    ask 2 check --unison spellings <<LINES
fault: roots: SpelledTwice /srv/Hub /srv/hub
$fault
LINES
    put spellings/two.prf 'root = /srv/Hub' 'root = /srv/s2' 'path = b'
    ask 0 check --unison spellings <<LINES
safe
$folds
$assumed_of_folded
LINES
    put spellings/one.prf 'root = /srv/Hub' 'root = /srv/s1' 'path = a'
    put spellings/two.prf 'root = /srv/hub' 'root = /srv/s2' 'path = b'
    ask 0 check --unison spellings <<LINES
safe
$assumed
LINES
}

try_folding() {
    local here
    here=$(pwd -P)
    put folding/one.prf 'root = /srv/hub' 'root = /srv/s1' 'path = Projects' 'ignorecase = true' 'ignore = Name *.TMP' 'height = 20'
    put folding/two.prf 'root = /srv/hub' 'root = ssh://pc//s2' 'path = projects'
    put folding/table 'pc /hosts/pc'
    ask 1 check --unison folding --hosts folding/table <<LINES
overlap: one writes projects at /srv/hub, two reaches projects
$folds
hubsync: lines that don't count, as Unison does no less without them: 1, first folding/one.prf line 6: height = 20
hubsync: one, line 3 (bundle line 4): path = projects
hubsync: two, line 3 (bundle line 9): path = projects
hubsync: run one after the other, or give one other paths, an ignore or a bar
hubsync: more counts with --unison than may happen
LINES
    ask 2 mend --unison folding --hosts folding/table <<LINES
fault: profiles: NamesFold
hubsync: names fold by ignorecase, fat, folds-names or a drive of Windows, and no lines are known that hold then: clashes says what clashes
LINES
    put folding/one.prf 'root = /srv/hub' 'root = /srv/s1' 'path = Projects'
    ask 0 check --unison folding --hosts folding/table <<LINES
safe
$assumed
LINES
    put folding/table 'folds-names pc /hosts/pc'
    ask 1 clashes --unison folding --hosts folding/table <<LINES
overlap: one writes projects at /srv/hub, two reaches projects
overlap: two writes projects at /srv/hub, one reaches projects
$folds
hubsync: one, line 3 (bundle line 4): path = projects
hubsync: two, line 3 (bundle line 8): path = projects
hubsync: run one after the other, or give one other paths, an ignore or a bar
hubsync: more counts with --unison than may happen
LINES
    put folding/rules 'root = /srv/hub' 'nolose = Name a' 'nolose = Name ?'
    ask 2 check --unison folding --hosts folding/table --rules folding/rules <<LINES
fault: rules: UnknownRule 1
hubsync: names fold by ignorecase, fat, folds-names or a drive of Windows, and this rule wouldn't hold for each spelling: write it without ?, with sets of ASCII alone, and with known characters
LINES
    put folding/two.prf 'root = /srv/hub' 'root = ssh://pc//s2' 'ignorecase = false'
    ask 2 check --unison folding --hosts folding/table <<LINES
fault: profile two line 5: UnknownPreference ignorecase
hubsync: folding/two.prf line 5: ignorecase = true
hubsync: hubsync has no answer for a profile with this line: let it run by itself, when no other profile runs, also by hand
hubsync: lines that don't count, as Unison does no less without them: 1, first folding/two.prf line 3: ignorecase = false
LINES
    put folding/home/.unison/docs.prf "root = $here/folding/home" 'root = /srv/docs' 'path = .UNISON' 'fat = true' 'unicode = true'
    ask 2 check --unison folding/home/.unison <<LINES
fault: folding/home/.unison/docs.prf: ArchivesInRoot
hubsync: $here/folding/home/.unison is in a root of folding/home/.unison/docs.prf: Unison would synchronize its own archives, while it writes them
hubsync: add ignore = Path .unison, and keep nothing there by a path line
LINES
    put folding/home/.unison/docs.prf "root = $here/folding/home" 'root = /srv/docs' 'ignore = Path .unison' 'fat = true' 'unicode = true'
    ask 0 check --unison folding/home/.unison <<LINES
safe
$folds
$assumed_of_folded
LINES
}

# All profiles of an office, and of the samples in Unison's manual, each by one call.
try_whole() {
    local each command
    for each in office manual; do
        cp -R "$folder/$each/unison" "$folder/$each/hosts" .
        for command in check clashes rounds; do
            ask "$(<"$folder/$each/of-folder/$command.status")" "$command" --unison unison --hosts hosts <"$folder/$each/of-folder/$command"
        done
        rm -R unison hosts
    done
}

# Each profile of these folders by itself. Only lines are refused by which Unison may do more, or that name a root otherwise.
try_each() {
    local each file
    for each in office manual; do
        for file in "$folder/$each/unison"/*.prf; do
            asked=$((asked + 1))
            file=$(basename "$file" .prf)
            echo "$file: $("$program" check --unison "$folder/$each/unison/$file.prf" --hosts "$folder/$each/hosts" 2>/dev/null </dev/null)"
        done >"$room/answers"
        compare "the answers to each profile of examples/$each" "$room/answers" <"$folder/$each/answers-for-unison"
    done
}

# Only lines are refused by which Unison may do more, or whose meaning no profile says, or that Unison refuses, too: those that the
# table of docs/UNISON.md has.
try_refused() {
    local each name
    for each in office manual; do
        asked=$((asked + 1))
        "$program" check --unison --verbose "$folder/$each/unison" --hosts "$folder/$each/hosts" 2>&1 >/dev/null </dev/null |
            sed -n 's/^hubsync: [^ ]* line [0-9]*: \([a-z]*\) = .*/\1/p' >"$room/refused" || true
        if [ "$each" = office ]; then
            printf '%s\n' root path follow merge backupdir fat ignorecase unicode
        else
            echo backupdir
        fi | compare "the lines that are refused of examples/$each" "$room/refused"
        while read -r name; do
            sed -n '/^## Refused lines/,/^## Harmless/p' "$folder/../docs/UNISON.md" | grep -q "\`$name\(\`\| = \)" ||
                complain "the table of docs/UNISON.md lacks $name"
        done <"$room/refused"
    done
}

# What `import` writes of a folder: included lines are in place, hosts are paths, and what counts for nothing is left out.
try_import() {
    put import/common 'ignore = Name common' 'height = 20'
    printf '\xef\xbb\xbf%s\r\n' 'root = /srv/hub' >import/docs.prf
    printf '%s\r\n' 'root = ssh://anna@Desk:22//srv/' 'include common' 'source? none' 'source more' >>import/docs.prf
    put import/more 'nodeletionpartial = Path a -> b -> ssh://anna@Desk:22//srv/' 'force = newer' 'path = docs' 'confirmbigdel = false'
    put import/part.prf 'root = socket://laptop//top' 'root = ssh://laptop/photos' 'path = retry = 1' ' sshargs=-C' 'prefer = ssh://laptop/photos'
    ask 0 import import --hosts remote/table <<LINES
%profile docs
root = /srv/hub
root = /hosts/desk/srv
path = docs
ignore = Name common
%profile part
root = /top
root = /home/anna b/photos
path = retry = 1
$assumed
hubsync: and that what sshargs writes lies outside of all roots
hubsync: lines that don't count, as Unison does no less without them: 4, first import/common line 2: height = 20
LINES
}

# What the program answers for Unison to a folder, and plainly to the bundle that is imported of it, is the same, but for two profiles that
# share an archive: their lines are left out here, and rounds are asked for Unison both times. A bundle is refused for nested roots, which
# `--unison` decides.
#
#     try_bundle FOLDER HOSTS
try_bundle() {
    local command reading
    "$program" import "$1" --hosts "$2" >"$room/bundle" 2>/dev/null </dev/null || complain "import $1: there is no bundle"
    for command in check clashes rounds; do
        asked=$((asked + 1))
        reading=()
        [ "$command" != rounds ] || reading=(--unison)
        { "$program" "$command" --unison "$1" --hosts "$2" 2>/dev/null </dev/null || true; } | sed '/^same archive: /d' >"$room/written"
        { "$program" "$command" "${reading[@]}" <"$room/bundle" 2>/dev/null || true; } >"$room/of-bundle"
        grep -aq '^refused: NestedRoots ' "$room/of-bundle" ||
            compare "$command: the folder $1 and its bundle" "$room/written" <"$room/of-bundle"
    done
}

try_bundles() {
    cp -R "$folder/office/unison" "$folder/office/hosts" .
    (cd unison && rm dotfiles.prf media.prf notes-merge.prf windows-share.prf)
    try_bundle unison hosts
    rm -R unison hosts
    cp -R "$folder/manual/unison" "$folder/manual/hosts" .
    rm unison/basic.prf
    try_bundle unison hosts
    try_bundle operands/two hosts
    rm -R unison hosts
}

if [ ! -x "$program" ]; then
    echo "folders: there is no program at $program"
    exit 1
fi
room=$(mktemp -d)
trap 'rm -rf "$room"' EXIT
mkdir "$room/tree"
cd "$room/tree"
try_forms
try_parts
try_rootless
try_long
try_included_often
try_missing
try_lines
try_unreadable
try_texts
try_many
try_verbose
try_hosts
try_archives
try_operands
try_machines
try_totals
try_folding
try_drives
try_spellings
try_whole
try_each
try_refused
try_import
try_bundles
echo "folders: ${1:-hubsync} answered $asked, $wrong of them wrongly"
[ "$wrong" = 0 ]
