#!/usr/bin/env bash
# Asks the program the questions of the table examples/remarks.txt, and compares what it says on standard error.
#
#     examples/remarks.sh [PROGRAM]
#
# PROGRAM is the built program (crates/hubsync/out/hubsync if left out). A case of the table has a title, an input, and one or
# more questions about it, as they would stand in a shell:
#
#     == a preference that is misspelled
#     %profile p
#     ignroe = Name x
#     $ hubsync
#     fault: profile p line 1: UnknownPreference ignroe
#     hubsync: bundle line 2: ignroe = Name x
#     hubsync: did you mean ignore?
#     status 2
#
# - The lines between `== TITLE` and the first `$` are the input. No lines are an empty one.
# - The words behind `$` are those that the program is started with, the first one its name. '' is an empty word.
# - The lines down to `status N` are the first line that it writes to standard output, and all lines that it writes to standard error.
# - Where standard error begins with clap's text, which words that ask for nothing get, only its lines that begin with `hubsync: ` count.
# - In inputs, words and answers `\` begins an escape of `printf '%b'`, as in the tables of answers.sh. `\c` ends an input without
#   a line end.
# - Between a status and the next title there may be blank lines, and remarks that begin with `#`.
#
# Each question is asked once more with a standard error that is full: the output and the status are the same. Each line that is
# proposed is tried: with it in the place of the faulty line, or at the end of its profile, the same isn't said again. So are lines
# that are proposed together for profiles. At last it asks
# what no table can say: inputs that are long, with too many lines, or that fail, and the commands that are proposed. A line is printed for each wrong answer. The status is 1
# if there was one, else 0.
set -euo pipefail
if [ "${1:-}" = --help ]; then
    sed -n '2,/^set /{ /^#/s/^# \{0,1\}//p }' "${BASH_SOURCE[0]}"
    exit 0
fi
folder=$(dirname "$(readlink -f "${BASH_SOURCE[0]}")")
program=$(readlink -m "${1:-$folder/../crates/hubsync/out/hubsync}")
asked=0
wrong=0

complain() {
    echo "remarks: $*"
    wrong=$((wrong + 1))
}

# The first line of a file that another one lacks there.
first_other() {
    diff -a "$1" "$2" | awk '/^</ { print substr($0, 3); exit }' || true
}

# Compares the answer and what was said with the file `wanted`, and the status.
#
#     judge PLACE WANTED-STATUS STATUS
judge() {
    asked=$((asked + 1))
    {
        head -n 1 "$room/output"
        if grep -aq '^error: ' "$room/errors"; then grep -a '^hubsync: ' "$room/errors" || true; else cat "$room/errors"; fi
    } >"$room/said"
    if ! cmp -s "$room/wanted" "$room/said"; then
        complain "$1: wanted '$(first_other "$room/wanted" "$room/said")', got '$(first_other "$room/said" "$room/wanted")'"
    elif [ "$2" != "$3" ]; then
        complain "$1: wanted status $2, got status $3"
    fi
}

# Asks the program about the file `input`.
#
#     ask PLACE WANTED-STATUS NAME WORD..
ask() {
    local status=0
    (exec -a "$3" "$program" "${@:4}") <"$room/input" >"$room/output" 2>"$room/errors" || status=$?
    judge "$1" "$2" "$status"
    ask_unheard "$1" "$status" "${@:3}"
}

# Asks the same with a standard error that is full: the output and the status are the same.
#
#     ask_unheard PLACE STATUS NAME WORD..
ask_unheard() {
    local status=0
    (exec -a "$3" "$program" "${@:4}") <"$room/input" >"$room/unheard" 2>/dev/full || status=$?
    if [ "$status" != "$2" ] || ! cmp -s "$room/output" "$room/unheard"; then
        complain "$1: another answer if standard error is full"
    fi
}

# Asks the question of a case.
#
#     ask_case PLACE WANTED-STATUS WORDS INPUT WANTED
ask_case() {
    local words i
    read -ra words <<<"$3"
    for i in "${!words[@]}"; do
        printf -v "words[i]" '%b' "${words[i]/#\'\'/}"
    done
    printf '%b' "$4" >"$room/input"
    printf '%b' "$5" >"$room/wanted"
    ask "$1: $3" "$2" "${words[@]}"
    cp "$room/errors" "$room/remarks"
    if grep -q ' these lines.*:$' "$room/remarks"; then
        try_lines "$1: $3" "${words[@]:1}"
    fi
    try_remedies "$1: $3" "${words[@]:1}"
}

# Asks about the input with the lines that are proposed for its profiles at their ends. It isn't answered the same.
#
#     try_lines PLACE WORD..
try_lines() {
    local answer
    answer=$(head -n 1 "$room/output")
    asked=$((asked + 1))
    perl -e '
        my (%lines, $is_on, $name);
        sub add { print @{ $lines{$name} // [] } if defined $name }
        open my $remarks, "<", shift or die;
        while (<$remarks>) {
            push @{ $lines{$1} }, $2 if $is_on && /^hubsync: (.*?): ((?:ignore|no[a-z]+) = .*\n)/;
            $is_on ||= / these lines.*:$/;
        }
        while (<>) {
            s/\n?\z/\n/;
            if (/^%/) { add; ($name) = /^%profile (.*)/ }
            print;
        }
        add' "$room/remarks" "$room/input" >"$room/tried"
    if "$program" "${@:2}" <"$room/tried" 2>/dev/null | grep -qxF -- "$answer"; then
        complain "$1: with the lines that are proposed it says again: $answer"
    fi
}

# Tries each line that the file `remarks` proposes for a line of the file `input`.
#
#     try_remedies PLACE WORD..
try_remedies() {
    local line at='' proposed='' said=''
    while IFS= read -r line; do
        if [[ $line =~ \(bundle\ line\ ([0-9]+)\):\  && -n $proposed ]]; then
            try_line "$1" "${BASH_REMATCH[1]}" "$proposed" "$said" "${@:2}"
            proposed=
        elif [[ $line =~ ^hubsync:\ bundle\ line\ ([0-9]+):\  ]]; then
            at=${BASH_REMATCH[1]}
        elif [[ $line =~ (add,\ for\ Unison\ too:|write|did\ you\ mean)\ ([^\ ]+\ =\ .*|/[^\ ]*|[^\ ]*/[^\ ]*|[a-z]+[?])(\ in\ its\ place.*|\ if\ the\ home.*|$) ]]; then
            proposed=${BASH_REMATCH[2]} said=$line
            if [[ -n $at && $proposed != *' = ..'* ]]; then
                try_line "$1" "$at" "$proposed" "hubsync: bundle line $at: " "${@:2}"
                proposed=
            fi
        fi
    done <"$room/remarks"
}

# Asks about the input with each line that is proposed for one of its lines. Nothing of what was said may be said again.
#
#     try_line PLACE LINE-NUMBER PROPOSED SAID WORD..
try_line() {
    local lines choice choices=("$3")
    if [[ $3 == *' or ignorenot = '* ]]; then
        choices=("${3%% or *}" "${3##* or }")
    fi
    for choice in "${choices[@]}"; do
        mapfile -t lines <"$room/input"
        lines[$2 - 1]=$(line_with "${lines[$2 - 1]}" "$choice" "$4")
        asked=$((asked + 1))
        printf '%s\n' "${lines[@]}" >"$room/tried"
        "$program" "${@:5}" <"$room/tried" >"$room/output" 2>"$room/errors" || true
        if grep -aqF -- "$4" "$room/errors"; then
            complain "$1: with '$choice' it is said again: $4"
        fi
    done
}

# What stands in the place of a line: the line and a further one, another line, or the line with another name or another value.
#
#     line_with LINE PROPOSED SAID
line_with() {
    case $3/$2 in
        *'for Unison too'*) printf '%s\n%s\n' "$1" "$2" ;;
        *[?]) echo "${2%[?]}${1#"${1%%[ =]*}"}" ;;
        *' = '*) echo "$2" ;;
        *) echo "${1%%=*}= $2" ;;
    esac
}

# The commands that are proposed for words run: none has the status 2.
ask_commands() {
    local at=$room/commands command words
    mkdir -p "$at/docs"
    printf '%s\n' 'root = /srv/hub' 'root = /srv/s1' 'path = docs' | tee "$at/docs.prf" "$at/docs/a.prf" >"$at/photos.prf"
    printf '%s\n' 'root = /srv/hub' 'nonew = Path x' >"$at/rules"
    { echo %profile p && cat "$at/docs.prf"; } >"$at/my.bundle"
    ln -sf "$program" "$at/hubsync"
    ln -sfn "$folder" "$at/examples"
    for words in my.bundle 'check my.bundle' docs.prf 'check docs.prf rules' 'rounds docs' 'check docs/'; do
        # shellcheck disable=SC2086
        "$program" $words 2>&1 </dev/null >/dev/null | grep '^hubsync: ' >"$room/remarks" || true
        while IFS= read -r command; do
            try_command "$words" "$at" "${command##*, as in: }"
        done < <(grep ', as in: ' "$room/remarks")
    done
    try_command 'check docs.prf rules' "$at" 'hubsync check docs.prf --rules rules'
}

# Runs a command in a folder.
#
#     try_command PLACE FOLDER COMMAND
try_command() {
    local status=0
    asked=$((asked + 1))
    case $3 in *'< docs') return 0 ;; esac
    (cd "$2" && PATH=$2:$PATH && bash -c "$3") >/dev/null 2>&1 </dev/null || status=$?
    [ "$status" -lt 2 ] || complain "$1: the command '$3' has the status $status"
}

# Asks all questions of a table.
ask_table() {
    local part=between title='' input='' question='' wanted='' line
    while IFS= read -r line; do
        case $part/$line in
            between/'== '*) title=${line#== } input='' part=input ;;
            input/'$ '* | between/'$ '*) question=${line#\$ } wanted='' part=output ;;
            output/'status '*)
                ask_case "$title" "${line#status }" "$question" "$input" "$wanted"
                part=between
                ;;
            between/ | between/'#'*) : ;;
            between/* | */'== '*) complain "in no case, or in one without a status: $line" ;;
            input/*) input+=$line$'\n' ;;
            output/*) wanted+=$line$'\n' ;;
        esac
    done <"$1"
    [ "$part" = between ] || complain 'the last case has no status'
}

# Of an input of 3 MB, a line near its start is shown, and none near its end. Of a safe one of 100 KB, none was added.
ask_long() {
    local comments
    comments=$(yes '# 30 characters in each line ..' | head -n 100000 || true)
    printf '%s\n' '%profile p' 'root /srv/hub' "$comments" >"$room/input"
    printf '%s\n' 'fault: profile p line 1: NoEquals' 'hubsync: bundle line 2: root /srv/hub' \
        'hubsync: there is no = in it: write root = /srv/hub' >"$room/wanted"
    ask 'a fault at the start of a long input' 2 hubsync
    printf '%s\n' '%profile p' "$comments" 'root /srv/hub' >"$room/input"
    echo 'fault: profile p line 100001: NoEquals' >"$room/wanted"
    ask 'a fault at the end of a long input' 2 hubsync
    printf '%s\n' '%profile p' 'root = /srv/hub' 'root = /srv/s1' "${comments:0:100000}" >"$room/input"
    echo '%profile p' >"$room/wanted"
    ask 'no lines for a long bundle that is safe' 0 hubsync mend --bundle
}

# Lines and profiles too many.
ask_many() {
    local i lines
    mapfile -t lines < <(yes 'path = a' | head -n 65)
    printf '%s\n' '%profile p' 'root = /srv/hub' 'root = /srv/s1' "${lines[@]}" >"$room/input"
    printf '%s\n' 'fault: profile p line 67: TooMany' 'hubsync: bundle line 68: path = a' \
        'hubsync: a profile may have 64 lines path = ..' >"$room/wanted"
    ask '65 paths' 2 hubsync
    for ((i = 0; i < 129; i++)); do
        printf '%%profile p%d\nroot = /hub%d\nroot = /spoke%d\n' "$i" "$i" "$i"
    done >"$room/input"
    printf '%s\n' 'refused: TooManyProfiles' 'hubsync: a bundle may have 128 profiles, and this one has 129' >"$room/wanted"
    ask '129 profiles' 1 hubsync
}

# Of files, remarks name the file and the line there.
ask_files() {
    local at=$room/files
    mkdir -p "$at/sub"
    : >"$room/input"
    printf '%s\n' 'root = /srv/hub' 'root = /srv/s1' 'path = docs' >"$at/whole.prf"
    printf '%s\n' '# a part' 'root = /srv/hub' 'root = /srv/s2' 'path = docs/2026' >"$at/part.prf"
    printf '%s\n' 'root = /srv/hub' 'ignroe = Name x' >"$at/sub/part.prf"
    printf '%s\n' 'root = /srv/hub' 'nolose = BelowPath docs' >"$at/rules"
    printf '%s\n' 'overlap: whole writes docs at /srv/hub, part reaches docs/2026' \
        "hubsync: whole ($at/whole.prf line 3): path = docs" \
        "hubsync: part ($at/part.prf line 4): path = docs/2026" \
        'hubsync: run one after the other, or add these lines, which hold for Unison too:' \
        'hubsync: whole: ignore = Path docs/2026' \
        'hubsync: whole: noupdatepartial = Path docs -> /srv/hub' \
        'hubsync: whole: nocreationpartial = Path docs -> /srv/hub' \
        'hubsync: whole then no longer synchronizes docs/2026' >"$room/wanted"
    ask 'files that overlap' 1 hubsync check "$at/whole.prf" "$at/part.prf"
    printf '%s\n' 'breach: whole may delete docs at /srv/hub, rule 0' \
        "hubsync: %rules ($at/rules line 2): nolose = BelowPath docs" \
        "hubsync: whole ($at/whole.prf line 3): path = docs" \
        'hubsync: these lines would keep the rule, for Unison too:' \
        'hubsync: whole: nodeletion = /srv/hub' >"$room/wanted"
    ask 'the file of rules' 1 hubsync check --rules "$at/rules" "$at/whole.prf"
    printf '%s\n' 'fault: profile part line 2: UnknownPreference ignroe' "hubsync: $at/sub/part.prf line 2: ignroe = Name x" \
        'hubsync: did you mean ignore?' >"$room/wanted"
    ask 'a fault in a file' 2 hubsync check "$at/whole.prf" "$at/sub/part.prf"
    sed -i 's/ignroe = Name x/root = \/srv\/s3/' "$at/sub/part.prf"
    printf '%s\n' 'refused: SameName part' \
        "hubsync: give each profile a name of its own: $at/part.prf $at/sub/part.prf" >"$room/wanted"
    ask 'files of one name' 1 hubsync check "$at/part.prf" "$at/sub/part.prf"
    printf '%s\n' "fault: $at/none.prf: ReadFailed" \
        "hubsync: $at/none.prf can't be read: No such file or directory (os error 2)" >"$room/wanted"
    ask 'a file that is missing' 2 hubsync check "$at/none.prf"
    printf '%s\n' "fault: $at/bundle.prf: HasHeading" \
        "hubsync: $at/bundle.prf line 2 begins with %, as only a line of a bundle does" >"$room/wanted"
    printf '%s\n' '# a bundle' '%profile a' >"$at/bundle.prf"
    ask 'a bundle as a file' 2 hubsync check "$at/bundle.prf"
}

# Of roots on other machines, a table of hosts is said once, and lines for profiles have the roots as these have them.
ask_hosts() {
    local at=$room/hosts
    mkdir -p "$at"
    : >"$room/input"
    printf '%s\n' 'root = /srv/hub' 'root = ssh://anna@FS2:22//srv' 'path = docs' 'follow = Path docs/x' >"$at/whole.prf"
    printf '%s\n' 'root = /srv/hub' 'root = ssh://laptop/work' 'path = docs/2026' >"$at/part.prf"
    printf '%s\n' 'root = ssh://bob@laptop/x' 'root = ssh://pc1/C:/x' 'force = ssh://pc1/C:/x' >"$at/far.prf"
    printf '%s\n' 'root = /srv/hub' 'root = ssh://anna@fs2//srv/old' 'path = old' >"$at/old.prf"
    printf '%s\n' 'fault: profile far line 1: BadPath RemoteRoot' \
        "hubsync: $at/far.prf line 1: root = ssh://bob@laptop/x" 'hubsync: it is on another machine: the table below has it' \
        "hubsync: $at/far.prf line 2: root = ssh://pc1/C:/x" 'hubsync: it is on another machine: the table below has it' \
        "hubsync: $at/far.prf line 3: force = ssh://pc1/C:/x" 'hubsync: it is on another machine: the table below has it' \
        "hubsync: $at/old.prf line 2: root = ssh://anna@fs2//srv/old" 'hubsync: it is on another machine: the table below has it' \
        "hubsync: $at/part.prf line 2: root = ssh://laptop/work" 'hubsync: it is on another machine: the table below has it' \
        "hubsync: $at/whole.prf line 2: root = ssh://anna@FS2:22//srv" 'hubsync: it is on another machine: the table below has it' \
        "hubsync: $at/whole.prf line 4: follow = Path docs/x" \
        'hubsync: hubsync has no answer for a profile with this line: let it run by itself, when no other profile runs, also by hand' \
        'hubsync: add --hosts FILE, where FILE has these lines:' 'hubsync:     bob@laptop~ /hosts/laptop/home/bob' \
        'hubsync:     fs2 /hosts/fs2' 'hubsync:     laptop~ /hosts/laptop/home/NAME' 'hubsync:     pc1 /hosts/pc1' \
        'hubsync: behind HOST~ stands the home there: write where it is, if it is elsewhere' >"$room/wanted"
    ask 'roots on other machines' 2 hubsync check --unison "$at"
    sed -n 's/^hubsync:     //p' "$room/errors" >"$at/table"
    printf '%s\n' 'fault: profile whole line 2: BadPath RemoteRoot' "hubsync: $at/whole.prf line 2: root = ssh://anna@FS2:22//srv" \
        'hubsync: it is on another machine: the table below has it' \
        'hubsync: add --unison and --hosts FILE, where FILE has these lines:' 'hubsync:     fs2 /hosts/fs2' >"$room/wanted"
    ask 'a root on another machine, read plainly' 2 hubsync check "$at/whole.prf"
    sed -i 4d "$at/whole.prf"
    sed -i 's/^laptop~.*//' "$at/table"
    printf '%s\n' 'root = ssh://bob@laptop/x' 'root = ssh://fs2//far' >"$at/far.prf"
    printf '%s\n' 'fault: profile part line 2: BadPath RemoteRoot' "hubsync: $at/part.prf line 2: root = ssh://laptop/work" \
        'hubsync: it is on another machine: the table below has it' \
        'hubsync: add these lines to the table of --hosts:' 'hubsync:     laptop~ /hosts/laptop/home/NAME' \
        'hubsync: behind HOST~ stands the home there: write where it is, if it is elsewhere' >"$room/wanted"
    ask 'a host that the table lacks' 2 hubsync check --unison --hosts "$at/table" "$at"
}

# An input that fails is said with the system's words.
ask_failing_input() {
    local status=0
    printf '%s\n' 'fault: bundle line 0: ReadFailed' \
        "hubsync: standard input can't be read: Is a directory (os error 21)" >"$room/wanted"
    "$program" <"$room" >"$room/output" 2>"$room/errors" || status=$?
    judge 'an input that is a directory' 2 "$status"
}

if [ ! -x "$program" ]; then
    echo "remarks: there is no program at $program"
    exit 1
fi
room=$(mktemp -d)
trap 'rm -rf "$room"' EXIT
ask_table "$folder/remarks.txt"
[ "$asked" -gt 0 ] || complain 'the table has no cases'
ask_commands
ask_many
ask_files
ask_hosts
ask_long
ask_failing_input
echo "remarks: ${1:-hubsync} was asked $asked, and said $wrong of them wrongly"
[ "$wrong" = 0 ]
