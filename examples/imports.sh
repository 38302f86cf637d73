#!/usr/bin/env bash
# Asks whether the bundles that `import` writes have the answers that the profiles have with `--unison`. ./test calls this script.
#
#     examples/imports.sh [PROGRAM]
#
# PROGRAM is the built program (crates/hubsync/out/hubsync if left out). Asked about are the inputs of answers/unison.txt and
# answers/imports.txt, the profiles of office/ and manual/, each by itself and all of a folder, also with rules, and profiles at random.
# `check` and `clashes` of what was imported answer as the same command with `--unison` does, with the same status, but for the paths that
# they show, which are of another alphabet. A bundle is one set, though, and `--unison` decides part by part: where there are rules, the
# answer with `--unison` is safe if that of the bundle is, and else of the same kind; a bundle refused for nested roots isn't compared. They are asked with
# `--unison` too where two profiles share an archive, which the plain answers don't ask about; so are `rounds`. `verify` of certificates
# for it answers too, if it is safe. A fault is the same, but where the profiles have an answer and no bundle says what was read: there
# a profile needs more lines than it may have. So the last `ignore` lines are taken away until there is a bundle, some profile of it
# needs then at least 63 of the 64 lines that it may have, and all else is asked of that. What is imported again has the same answer, and
# if it ignores nothing it is the same, byte for byte. Profiles of many lines are also asked about with these joined by braces, of which
# there is a bundle: it answers as the lines that aren't joined do. A line is printed for each that is wrong. The status is 1 if there
# was one, else 0.
set -euo pipefail
if [ "${1:-}" = --help ]; then
    sed -n '2,/^set /{ /^#/s/^# \{0,1\}//p }' "${BASH_SOURCE[0]}"
    exit 0
fi
folder=$(dirname "$(readlink -f "${BASH_SOURCE[0]}")")
program=$(readlink -m -- "${1:-$folder/../crates/hubsync/out/hubsync}")
asked=0
wrong=0

complain() {
    echo "imports: $*"
    wrong=$((wrong + 1))
}

# Runs the program with these words on the file `input`, and leaves its answer and its status in a file.
#
#     answer FILE WORD..
answer() {
    local status=0
    "$program" "${@:2}" <"$room/input" >"$room/$1" 2>/dev/null || status=$?
    echo "status $status" >>"$room/$1"
}

# Compares two files.
#
#     compare WHAT FILE FILE
compare() {
    asked=$((asked + 1))
    cmp -s "$room/$2" "$room/$3" || complain "$1: $(diff -a "$room/$2" "$room/$3" | sed -n '2{p;q}')"
}

# Compares two answers beside rules, of which the second isn't safe: one is a fault, a refusal or a number of rounds if the other is. The
# first may be safe, or have fewer rounds or other lines.
compare_kinds() {
    local each
    for each in "${@:2}"; do
        sed -E 's/^(safe|overlap: .*|breach: .*|same archive: .*)$/an answer/; s/^(rounds) .*$/\1/; s/^status [01]$/answered/' "$room/$each" |
            grep -aE '^(an answer|rounds|fault|refused|answered|status)' | sort -u >"$room/$each.kind"
    done
    compare "$1" "$2.kind" "$3.kind"
}

# Compares two answers but for the paths that they show, if what was imported is decided as the profiles with `--unison` are.
#
#     compare_answers WHAT FILE FILE
compare_answers() {
    local each
    ! grep -aq '^refused: NestedRoots ' "$room/$3" || return 0
    if grep -q '^%rules$' "$room/imported" && ! grep -qx safe "$room/$3"; then
        compare_kinds "$@"
        return
    fi
    for each in "${@:2}"; do
        sed -E 's/^(overlap: [^ ]+) writes .* at (\/.*), ([^ ]+) reaches .*$/\1 at \2, \3/' "$room/$each" >"$room/$each.pathless"
    done
    compare "$1" "$2.pathless" "$3.pathless"
}

# Compares the answers for Unison with those to what is imported. The words name files, or the input is the file `bundle`.
#
#     ask PLACE WORD..
ask() {
    local place=$1 command status=0 reading=()
    shift
    cp "$room/bundle" "$room/input"
    "$program" import "$@" <"$room/input" >"$room/imported" 2>/dev/null || status=$?
    answer wanted check --unison "$@"
    if grep -qx 'fault: no bundle says what was read' "$room/imported" && ! grep -q '^fault' "$room/wanted"; then
        ask_unwritten "$place" "$status" "$@"
        return
    elif [ "$status" != 0 ]; then
        cp "$room/imported" "$room/got"
        echo "status $status" >>"$room/got"
        compare "$place: the fault" wanted got
        return
    fi
    answer wanted clashes --unison "$@"
    ! grep -q '^same archive: ' "$room/wanted" || reading=(--unison)
    for command in check clashes rounds; do
        [ "$command" != rounds ] || reading=(--unison)
        cp "$room/bundle" "$room/input"
        answer wanted "$command" --unison "$@"
        cp "$room/imported" "$room/input"
        answer got "$command" "${reading[@]}"
        compare_answers "$place: $command" wanted got
    done
    ask_again "$place"
    ask_certificates "$place"
}

# The most lines of patterns that a profile of this bundle has.
most_patterns() {
    awk '/^%/ { count = 0 } /^ignore(not)? =/ { if (++count > most) most = count } END { print most + 0 }' "$1"
}

# Asks about the file `bundle`, of which no bundle says what was read, without the last `ignore` lines that are too many.
#
#     ask_unwritten PLACE STATUS WORD..
ask_unwritten() {
    local most status=0
    asked=$((asked + 1))
    if [ "$2" != 2 ] || [ "$#" -gt 2 ] || grep -q '^%rules$' "$room/bundle"; then
        complain "$1: no bundle says what was read, and status $2"
        return
    fi
    while grep -q '^ignore =' "$room/bundle"; do
        tac "$room/bundle" | awk '/^ignore =/ && !is_cut++ { next } { print }' | tac >"$room/cut"
        mv "$room/cut" "$room/bundle"
        status=0
        "$program" import <"$room/bundle" >"$room/imported" 2>/dev/null || status=$?
        [ "$status" != 0 ] || break
    done
    most=$(most_patterns "$room/imported")
    if [ "$status" != 0 ] || [ "$most" -lt 63 ] || [ "$most" -gt 64 ]; then
        complain "$1: no bundle says what was read, and with a line less one has $most lines"
    else
        ask "$1, without the last lines"
    fi
}

# Compares what is imported with what is imported again.
ask_again() {
    cp "$room/imported" "$room/input"
    if grep -q '^ignore' "$room/imported"; then
        answer got check
        answer wanted check --unison
        compare_answers "$1: imported again" wanted got
    else
        "$program" import <"$room/input" >"$room/again" 2>/dev/null || true
        compare "$1: imported again" imported again
    fi
}

# Has certificates of what is imported verified, if there are some.
ask_certificates() {
    cp "$room/imported" "$room/input"
    if "$program" certify <"$room/input" >"$room/certificates" 2>/dev/null; then
        { cat "$room/imported" && echo %certificates && cat "$room/certificates"; } >"$room/input"
        answer got verify
        printf '%s\n' verified 'status 0' >"$room/wanted"
        compare "$1: the certificates" wanted got
    fi
}

# Asks about each input of a table.
ask_table() {
    local title='' input='' inside=0 line
    while IFS= read -r line; do
        case $inside/$line in
            ?/'== '*) title=${line#== } input='' inside=1 ;;
            1/'$ '*)
                printf '%b' "$input" >"$room/bundle"
                ask "${1##*/}: $title"
                inside=0
                ;;
            1/*) input+=$line$'\n' ;;
        esac
    done <"$1"
}

# Asks about each profile of a folder, and about all of those of which none is refused, with rules and without.
#
#     ask_folder NAME
ask_folder() {
    local at=$folder/$1 each fine=()
    : >"$room/bundle"
    printf '%s\n' 'root = /srv/hub' 'nolose = BelowPath a' 'root = /srv/office' 'nochange = Name x' 'nonew = Path [a-c]' >"$room/rules"
    for each in "$at"/unison/*.prf; do
        ask "${each##*/}" "$each" --hosts "$at/hosts"
        ask "${each##*/} with rules" "$each" --hosts "$at/hosts" --rules "$room/rules"
        if "$program" import "$each" --hosts "$at/hosts" >/dev/null 2>&1; then
            fine+=("$each")
        fi
    done
    ask "$1" "$at/unison" --hosts "$at/hosts"
    ask "$1 without faults" "${fine[@]}" --hosts "$at/hosts"
    ask "$1 without faults, with rules" "${fine[@]}" --hosts "$at/hosts" --rules "$room/rules"
}

# One of these words.
one_of() {
    local words=("$@")
    picked=${words[RANDOM % $#]}
}

# Writes a profile at random, with lines of all kinds.
#
#     random_profile NAME
random_profile() {
    local i kind root spoke picked
    one_of '/srv/hub' '/srv/hub/' '/srv/hub /' '/srv/h->b'
    root=$picked
    one_of "/srv/$1" "/srv/$1 /" "/mnt/$1" '/srv/s0'
    spoke=$picked
    printf '%s\n' "%profile $1" "root = $root" "root = $spoke"
    for ((i = RANDOM % 12; i > 0; i--)); do
        one_of path path ignore ignore ignore ignorenot force nodeletion noupdate nocreation nodeletionpartial noupdatepartial nocreationpartial prefer
        kind=$picked
        case $kind in
            path) one_of a a/b c 'docs /*' 'd/*' "$1" 'é' 'x y' '*' 'e /' ;;
            ignore | ignorenot) one_of 'Name *.tmp' 'Path a/[a-c-]x' 'BelowPath {a,b\,}' 'Name ?' 'Name .*' 'Path *.d/*.tmp' 'Name {x, y}' 'Name \*a' 'Name a -> b' ;;
            force | prefer | nodeletion | noupdate | nocreation) one_of "$root" "$spoke" ;;
            *)
                one_of "Path a -> $spoke" "Name *.x -> $root" "BelowPath c->$spoke"
                ;;
        esac
        echo "$kind = $picked"
    done
}

# Asks about sets of profiles at random, of which most have no fault.
#
#     ask_random COUNT
ask_random() {
    local i k
    RANDOM=7
    for ((i = 0; i < $1; i++)); do
        {
            for ((k = RANDOM % 4; k >= 0; k--)); do
                random_profile "p$k"
            done
            if [ $((RANDOM % 3)) = 0 ]; then
                printf '%s\n' %rules 'root = /srv/hub' 'nolose = Name *.x' 'root = /srv/p0 /' 'nochange = Path {a,b}/[x-z]' 'nonew = BelowPath c'
            fi
        } >"$room/bundle"
        ask "set $i at random"
    done
}

# Writes a profile with so many lines, and one of a path. With a third word the lines are joined by braces.
#
#     many_lines COUNT PATH [joined]
many_lines() {
    local number names=''
    printf '%s\n' '%profile a' 'root = /srv/hub' 'root = /srv/s1'
    for ((number = 1; number <= $1; number++)); do
        names+=,x$number
        if [ "$#" = 2 ]; then
            echo "ignore = Name *.x$number"
        elif [ $((number % 30)) = 0 ] || [ "$number" = "$1" ]; then
            echo "ignore = Name *.{${names#,}}"
            names=''
        fi
    done
    printf '%s\n' '%profile b' 'root = /srv/hub' 'root = /srv/s2' "path = $2"
}

# Asks about profiles with so many lines, each of which needs another one for a dot, that at last there is no bundle. The path of the
# other profile is matched by the last line alone, or is what it leaves out.
ask_many() {
    local count path command
    for count in 31 32 33 64; do
        for path in "a.x$count" ".x$count"; do
            many_lines "$count" "$path" >"$room/bundle"
            ask "$count lines, $path"
            many_lines "$count" "$path" joined >"$room/bundle"
            ask "$count lines joined, $path"
            "$program" import <"$room/bundle" >"$room/imported" 2>/dev/null || complain "$count lines joined, $path: there is no bundle"
            for command in check clashes rounds; do
                many_lines "$count" "$path" >"$room/input"
                answer wanted "$command" --unison
                cp "$room/imported" "$room/input"
                answer got "$command"
                compare "$count lines, and a bundle of them joined, $path: $command" wanted got
            done
        done
    done
}

if [ ! -x "$program" ]; then
    echo "imports: there is no program at $program"
    exit 1
fi
room=$(mktemp -d)
trap 'rm -rf "$room"' EXIT
ask_table "$folder/answers/unison.txt"
ask_table "$folder/answers/imports.txt"
ask_folder office
ask_folder manual
ask_random 40
ask_many
echo "imports: ${1:-hubsync} answered $asked, $wrong of them wrongly"
[ "$wrong" = 0 ]
