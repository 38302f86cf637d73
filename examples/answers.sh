#!/usr/bin/env bash
# Asks the program the questions of the tables examples/answers/*.txt, and compares its answers.
#
#     examples/answers.sh [PROGRAM [PART..]]
#     examples/answers.sh --parts
#
# PROGRAM is the built program (crates/hubsync/out/hubsync if left out). A part is a table, or something that no table can say:
# `--parts` prints them, and without PART all are asked. A case of a table has a title, an input, and one or more questions about
# it, as they would stand in a shell:
#
#     == a folder, and then a part of it
#     %profile whole
#     root = /srv/hub
#     root = /srv/s1
#     path = a
#     %profile part
#     root = /srv/hub
#     root = /srv/s1
#     path = a/b
#     $ hubsync check
#     overlap: whole writes a at /srv/hub, part reaches a/b
#     status 1
#     $ hubsync reach part a
#     not reached
#     status 0
#
# - The lines between `== TITLE` and the first `$` are the input. No lines are an empty one.
# - The words behind `$` are those that the program is started with, the first one its name. '' is an empty word.
# - The lines down to `status N` are all that it writes to standard output. The input is read to its end, and standard error
#   has nothing but remarks, which remarks.sh compares: up to 30 lines, each of which begins with `hubsync: `.
# - Where a line `stderr: TEXT` stands above the status, the words ask for nothing: standard error begins with
#   that text, and the input isn't read.
# - In inputs, words and answers `\` begins an escape of `printf '%b'`, as `\r`, `\0`, `\xff`, or `\x20` for
#   a space at the end of a line. `\c` ends an input without a line end.
# - Between a status and the next title there may be blank lines, and remarks that begin with `#`.
#
# Each question that reads its input is asked once more with an input that comes byte by byte. What no table can say are files, inputs
# that are long, forged, cut (hostile.sh) or that fail, and outputs that fail, of which standard error says that. A line is printed
# for each wrong answer. The status is 1 if there was one, else 0.
set -euo pipefail
if [ "${1:-}" = --help ]; then
    sed -n '2,/^set /{ /^#/s/^# \{0,1\}//p }' "${BASH_SOURCE[0]}"
    exit 0
fi
shopt -s nullglob
folder=$(dirname "$(readlink -f "${BASH_SOURCE[0]}")")
program=$(readlink -m -- "${1:-$folder/../crates/hubsync/out/hubsync}")
# shellcheck source=examples/hostile.sh
source "$folder/hostile.sh"
asked=0
wrong=0

complain() {
    echo "answers: $*"
    wrong=$((wrong + 1))
}

# The first line of a file that another one lacks there.
first_other() {
    diff -a "$1" "$2" | awk '/^</ { print substr($0, 3); exit }' || true
}

# Compares what was written with the file `wanted`, and the status.
#
#     judge PLACE WANTED-STATUS STATUS
judge() {
    asked=$((asked + 1))
    if ! cmp -s "$room/wanted" "$room/output"; then
        complain "$1: wanted '$(first_other "$room/wanted" "$room/output")' and status $2," \
            "got '$(first_other "$room/output" "$room/wanted")' and status $3"
        return 1
    elif [ "$2" != "$3" ]; then
        complain "$1: wanted status $2, got status $3"
        return 1
    fi
}

# Whether standard error has nothing but remarks.
has_remarks_alone() {
    local lines each
    mapfile -t lines <"$room/errors"
    for each in "${lines[@]}"; do
        [[ $each == 'hubsync: '* ]] || return 1
    done
    [ "${#lines[@]}" -le 30 ]
}

# Looks for anything else than remarks on standard error.
#
#     judge_remarks PLACE
judge_remarks() {
    has_remarks_alone || complain "$1: on standard error there is '$(head -1 "$room/errors")'"
}

# Compares what was written to standard error.
#
#     judge_errors PLACE WANTED-LINE
judge_errors() {
    local line=
    [ -s "$room/errors" ] && line=$(<"$room/errors")
    [ "$line" = "$2" ] || complain "$1: wanted '$2' on standard error, got '$line'"
}

# Asks the program about the file `input`, and compares its answer with the file `wanted`.
#
#     ask PLACE WANTED-STATUS WANTED-ERROR NAME WORD..
ask() {
    local place=$1 error=$3 status=0
    {
        (exec -a "$4" "$program" "${@:5}") >"$room/output" 2>"$room/errors" || status=$?
        if [ -n "$error" ]; then
            cmp -s - "$room/input" || complain "$place: some of the input was read"
        elif IFS= read -r -d '' -n 1; then
            complain "$place: some of the input is left"
        fi
    } <"$room/input"
    judge "$place" "$2" "$status" || return 0
    if [ -z "$error" ]; then
        judge_remarks "$place"
    elif [[ $(<"$room/errors") != "$error"* ]]; then
        complain "$place: wanted '$error' on standard error, got '$(head -1 "$room/errors")'"
    fi
}

# Asks the question of a case.
#
#     ask_case PLACE WANTED-STATUS WANTED-ERROR WORDS INPUT OUTPUT
ask_case() {
    local words i
    read -ra words <<<"$4"
    for i in "${!words[@]}"; do
        printf -v "words[i]" '%b' "${words[i]/#\'\'/}"
    done
    printf '%b' "$5" >"$room/input"
    printf '%b' "$6" >"$room/wanted"
    ask "$1: $4" "$2" "$3" "${words[@]}"
    if [ -z "$3" ]; then
        ask_bytes "$1: $4" "$2" "${words[@]}"
    fi
}

# Asks all questions of a table.
ask_table() {
    local table=${1##*/} part=between title='' input='' question='' output='' error='' line
    while IFS= read -r line; do
        case $part/$line in
            between/'== '*) title=${line#== } input='' part=input ;;
            input/'$ '* | between/'$ '*) question=${line#\$ } output='' error='' part=output ;;
            output/'stderr: '*) error=${line#stderr: } ;;
            output/'status '*)
                ask_case "$table: $title" "${line#status }" "$error" "$question" "$input" "$output"
                part=between
                ;;
            between/ | between/'#'*) : ;;
            between/* | */'== '*) complain "$table: in no case, or in one without a status: $line" ;;
            input/*) input+=$line$'\n' ;;
            output/*) output+=$line$'\n' ;;
        esac
    done <"$1"
    [ "$part" = between ] || complain "$table: the last case has no status"
}

# A bundle of so many profiles that share nothing.
many_profiles() {
    local i
    for ((i = 0; i < $1; i++)); do
        printf '%%profile p%d\nroot = /hub%d\nroot = /spoke%d\n' "$i" "$i" "$i"
    done
}

# There may be 128 profiles.
ask_many() {
    many_profiles 128 >"$room/input"
    echo safe >"$room/wanted"
    ask '128 profiles' 0 '' hubsync
    many_profiles 129 >"$room/input"
    echo 'refused: TooManyProfiles' >"$room/wanted"
    ask '129 profiles' 1 '' hubsync
}

# A profile that ignores names of so many different characters, those from U+4E00 on.
many_characters() {
    local i character
    printf '%%profile p\nroot = /srv/hub\nroot = /srv/s1'
    for ((i = 0; i < $1; i++)); do
        case $i in 0 | 170 | 340) printf '\nignore = Name ' ;; esac
        printf -v character '\\xe4\\x%x\\x%x' $((0xb8 + i / 64)) $((0x80 + i % 64))
        printf '%b' "$character"
    done
    echo
}

# A profile with so many positions in its patterns. A pattern has one more than its characters.
many_positions() {
    local i name
    printf '%%profile p\nroot = /srv/hub\nroot = /srv/s1\n'
    for ((i = $1; i > 0; i -= 201)); do
        printf -v name '%0*d' $((i < 201 ? i - 1 : 200)) 0
        echo "ignore = Name ${name//0/a}"
    done
}

# There may be 512 characters, with `.` and `/`, and 4,096 positions.
ask_large() {
    echo safe >"$room/wanted"
    many_characters 510 >"$room/input"
    ask '512 characters' 0 '' hubsync
    many_positions 4096 >"$room/input"
    ask '4,096 positions' 0 '' hubsync
    many_characters 511 >"$room/input"
    echo 'refused: TooManyCharacters' >"$room/wanted"
    ask '513 characters' 1 '' hubsync
    many_positions 4097 >"$room/input"
    echo 'refused: TooManySpots' >"$room/wanted"
    ask '4,097 positions' 1 '' hubsync
}

# What certify writes, verify takes.
ask_certificates() {
    local roots=$'root = /srv/hub\nroot = /srv/s1'
    printf '%s\n' '%profile a' "$roots" 'path = a' '%profile b' "$roots" 'path = b' >"$room/bundle"
    printf '%s\n' '%rules' 'root = /srv/hub' 'nolose = Path c' >>"$room/bundle"
    {
        cat "$room/bundle"
        echo %certificates
        "$program" certify <"$room/bundle" 2>/dev/null || true
    } >"$room/input"
    echo verified >"$room/wanted"
    ask 'its own certificates' 0 '' hubsync verify
}

# A bundle of so many profiles of one hub, each of which clashes with the next one, and the last one with the first one. All
# replicas are empty.
ring() {
    local i
    for ((i = 0; i < $1; i++)); do
        printf '%%profile p%d\nroot = /srv/hub\nroot = /srv/s%d\n' "$i" "$i"
        printf 'path = a%d\npath = a%d/x\n' "$i" "$(((i + 1) % $1))"
    done
    printf '%s\n' %state 'hubsync state 1' 'replica /srv/hub'
    for ((i = 0; i < $1; i++)); do
        echo "replica /srv/s$i"
    done
    echo end
}

# `run --rounds` runs the rounds that `rounds` prints: as many, with the same profiles in the same order.
ask_run_of_rounds() {
    local count status
    for count in 7 31; do
        ring "$count" >"$room/input"
        status=0
        "$program" rounds <"$room/input" 2>"$room/errors" |
            sed -n -e '/^rounds /p' -e 's/^round [0-9]* \(.*\)/job \1 finished/p' >"$room/wanted"
        "$program" run --rounds <"$room/input" >"$room/output" 2>"$room/errors" || status=$?
        sed -i '/^hubsync state/,$d' "$room/output"
        judge "the rounds of a ring of $count" 0 "$status" || true
        [ "$(wc -l <"$room/wanted")" = $((count + 1)) ] || complain "a ring of $count has $(wc -l <"$room/wanted") lines"
    done
}

# Threads that the system refuses, since the stack of each wants more room than the program may have. Below the line that says so
# a run by rounds has the state as it was.
ask_threads() {
    local words status first
    profile_with %state 'hubsync state 1' 'replica /srv/hub' 'file - e' 'replica /srv/s1' end >"$room/input"
    for words in run 'run --workers 1' 'run --rounds' 'run --in-order'; do
        first=safe
        [[ $words != *rounds ]] || first='rounds 1'
        [[ $words != *order ]] || first='in order'
        printf '%s\n' "$first" 'run fault: ThreadRefused' >"$room/wanted"
        status=0
        (
            ulimit -S -s 4000000
            ulimit -v 3000000
            # shellcheck disable=SC2086
            exec "$program" $words <"$room/input" >"$room/output" 2>"$room/errors"
        ) || status=$?
        sed -i '3,$d' "$room/output"
        judge "no thread for $words" 3 "$status" || true
        judge_remarks "no thread for $words"
    done
}

# Files: each operand is a profile, and options name the rules, the state and the certificates.
ask_files() {
    local at=$room/files roots=$'root = /srv/hub\nroot = /srv/s1'
    mkdir -p "$at/folder.prf" "$at/sub"
    : >"$room/input"
    printf '%s\npath = a' "$roots" >"$at/one.prf"
    printf '%s\r\npath = a/b\r\n' "$roots" >"$at/sub/two.prf"
    printf '%s\npath = c\n' "$roots" >"$at/three.prf"
    printf '%s\n' 'root = /srv/hub' 'nolose = BelowPath c/d' >"$at/rules"
    printf '%s\n' 'hubsync state 1' end >"$at/state"
    printf '%s\n' "$roots" '%rules' >"$at/bundle.prf"
    echo 'overlap: one writes a at /srv/hub, two reaches a/b' >"$room/wanted"
    ask 'two files' 1 '' hubsync check "$at/one.prf" "$at/sub/two.prf"
    ask 'two files for certificates' 1 '' hubsync certify "$at/one.prf" "$at/sub/two.prf"
    printf '%s\n' 'overlap: one writes a at /srv/hub, two reaches a/b' 'overlap: one writes a at /srv/s1, two reaches a/b' \
        'overlap: one writes a at archive of /srv/hub and /srv/s1, two reaches a/b' \
        'overlap: two writes a/b at /srv/hub, one reaches a/b' 'overlap: two writes a/b at /srv/s1, one reaches a/b' \
        'overlap: two writes a/b at archive of /srv/hub and /srv/s1, one reaches a/b' >"$room/wanted"
    ask 'two files for all that clashes' 1 '' hubsync clashes "$at/one.prf" "$at/sub/two.prf"
    echo safe >"$room/wanted"
    ask 'the files of two profiles that are safe' 0 '' hubsync check -- "$at/one.prf" "$at/three.prf"
    printf '%s\n' 'rounds 1' 'at least 1' 'round 1 three' >"$room/wanted"
    ask 'a file for rounds' 0 '' hubsync rounds "$at/three.prf"
    echo 'breach: three may delete c/d at /srv/hub, rule 0' >"$room/wanted"
    ask 'the file of rules' 1 '' hubsync check "$at/three.prf" --rules "$at/rules"
    "$program" certify "$at/one.prf" "$at/three.prf" >"$at/certificates" 2>"$room/errors" || true
    echo verified >"$room/wanted"
    ask 'the file of certificates' 0 '' hubsync verify "$at/one.prf" "$at/three.prf" --certificates "$at/certificates"
    printf '%s\n' safe 'run fault: MissingReplica /srv/hub' >"$room/wanted"
    ask 'the file of a state' 3 '' hubsync run --workers 1 --state "$at/state" "$at/one.prf"
    echo 'fault: profile one line 4: NoEquals' >"$room/wanted"
    printf '\nx\n' >>"$at/one.prf"
    ask 'a faulty file' 2 '' hubsync check "$at/one.prf"
    echo 'refused: SameName three' >"$room/wanted"
    ask 'a file twice' 1 '' hubsync check "$at/three.prf" "$at/three.prf"
    echo "fault: $at/four.prf: ReadFailed" >"$room/wanted"
    ask 'a file that is missing' 2 '' hubsync check "$at/three.prf" "$at/four.prf" "$at/bundle.prf"
    echo "fault: $at/folder.prf: ReadFailed" >"$room/wanted"
    ask 'a folder' 2 '' hubsync check "$at/folder.prf"
    ask_files_without_end "$at"
    echo "fault: $at/bundle.prf: HasHeading" >"$room/wanted"
    ask 'a bundle as a file' 2 '' hubsync check "$at/three.prf" "$at/bundle.prf"
    cp "$at/three.prf" "$at/"$'a\n%rules\n.prf'
    printf 'fault: %s: BadName\n' "$at/"$'a\n%rules\n.prf' >"$room/wanted"
    ask 'a line end in the name of a file' 2 '' hubsync check "$at/"$'a\n%rules\n.prf'
}

# Asks about the file of a profile with so little memory that its bytes find no room.
#
#     ask_in_little_memory PLACE FILE
ask_in_little_memory() {
    local status=0
    echo 'fault: out of memory' >"$room/wanted"
    (
        ulimit -v 200000
        exec "$program" check "$2" </dev/null >"$room/output" 2>"$room/errors"
    ) || status=$?
    judge "$1" 2 "$status" || true
    judge_remarks "$1"
}

# Files that are too long for the memory, or that have no end: 1,000,000 reads of one byte.
ask_files_without_end() {
    local status=0
    truncate -s 1G "$1/large.prf"
    ask_in_little_memory 'a file that is too large' "$1/large.prf"
    rm "$1/large.prf"
    ln -s /dev/zero "$1/zero.prf"
    ask_in_little_memory 'a file without an end' "$1/zero.prf"
    ln -s /dev/stdin "$1/bytes.prf"
    echo "fault: $1/bytes.prf: TurnsSpent" >"$room/wanted"
    dd if=/dev/zero bs=1 count=1000000 oflag=direct status=none |
        "$program" check "$1/bytes.prf" >"$room/output" 2>"$room/errors" || status=$?
    judge 'a file of 1,000,000 reads' 2 "$status" || true
    judge_errors 'a file of 1,000,000 reads' "hubsync: $1/bytes.prf has no end, as far as it was read"
}

# A bundle with a state alone, in the form in which it is written. Its 12,293 bytes are three reads of 4,096 bytes,
# and five bytes more.
long_state() {
    local digest
    head -c 6056 <(seq 2000) >"$room/bytes"
    digest=$(sha256sum <"$room/bytes" | cut -c 1-64)
    printf '%s\n' %state 'hubsync state 2' "blob $digest $(od -An -v -tx1 <"$room/bytes" | tr -d ' \n')"
    printf '%s\n' 'replica /' "file $digest ab" end
}

# Inputs that take many reads.
ask_long() {
    long_state >"$room/input"
    sed '1s/.*/safe/' "$room/input" >"$room/wanted"
    ask 'an input of several reads' 0 '' hubsync
    ask_bytes 'an input of several reads' 0 hubsync
    # without a line end at its end
    printf '%s\n' '%profile u' 'root = /srv/hub' 'root = /srv/s1' 'path = a' >"$room/input"
    printf '%s\n' '%profile v' 'root = /srv/s1' 'root = /srv/hub' >>"$room/input"
    printf 'path = a/b' >>"$room/input"
    echo 'overlap: u writes a at /srv/hub, v reaches a/b' >"$room/wanted"
    ask_bytes 'two profiles' 1 hubsync
}

# Inputs that fail, at the first read or later.
ask_failing_inputs() {
    local status=0
    echo 'fault: bundle line 0: ReadFailed' >"$room/wanted"
    "$program" <"$room" >"$room/output" 2>"$room/errors" || status=$?
    judge 'an input that is a directory' 2 "$status" || true
    judge_errors 'an input that is a directory' "hubsync: standard input can't be read: Is a directory (os error 21)"
    # 4,097 blanks in a pipe that has more to come, and whose reads don't wait for it, but fail
    mkfifo "$room/pipe"
    exec 3<>"$room/pipe"
    printf '%4097s' '' >&3
    dd iflag=nonblock count=0 status=none <&3
    status=0
    "$program" <&3 >"$room/output" 2>"$room/errors" || status=$?
    exec 3>&-
    judge 'an input that fails at a later read' 2 "$status" || true
    judge_errors 'an input that fails at a later read' \
        "hubsync: standard input can't be read: Resource temporarily unavailable (os error 11)"
}

# Outputs that fail: they take nothing, or the first 1,024 bytes. Standard error says so, unless it fails too.
ask_failing_outputs() {
    local status=0 error='hubsync: the answer could not be written'
    : >"$room/wanted"
    : >"$room/output"
    "$program" </dev/null >/dev/full 2>"$room/errors" || status=$?
    judge 'an output that is full' 2 "$status" || true
    judge_errors 'an output that is full' "$error: No space left on device (os error 28)"
    status=0
    "$program" </dev/null >/dev/full 2>/dev/full || status=$?
    judge 'two outputs that are full' 2 "$status" || true
    status=0
    "$program" --help </dev/null >"$room/output" 2>/dev/full || status=$?
    judge 'help for a standard error that is full' 2 "$status" || true
    long_state >"$room/input"
    sed '1s/.*/safe/' "$room/input" >"$room/whole"
    head -c 1024 "$room/whole" >"$room/wanted"
    status=0
    (
        trap '' XFSZ
        ulimit -f 1
        exec "$program" <"$room/input" >"$room/output" 2>"$room/errors"
    ) || status=$?
    judge 'an output that is soon full' 2 "$status" || true
    judge_errors 'an output that is soon full' "$error: File too large (os error 27)"
}

parts=("$folder"/answers/*.txt many large certificates run_of_rounds threads files long failing_inputs failing_outputs)
parts+=(limits forged large_states cut blanks)
parts=("${parts[@]##*/}")
if [ "${1-}" = --parts ]; then
    printf '%s\n' "${parts[@]}"
    exit
elif [ ! -x "$program" ]; then
    echo "answers: there is no program at $program"
    exit 1
fi
[ "$#" -lt 2 ] || parts=("${@:2}")
room=$(mktemp -d)
trap 'rm -rf "$room"' EXIT
for part in "${parts[@]}"; do
    if [ -e "$folder/answers/$part" ]; then
        ask_table "$folder/answers/$part"
    else
        "ask_$part"
    fi
done
[ "$asked" -gt 0 ] || complain 'nothing was asked'
echo "answers: ${1:-hubsync} answered $asked, $wrong of them wrongly"
[ "$wrong" = 0 ]
