#!/usr/bin/env bash
# Compares the program's answers to the examples with the table in examples/expected.txt.
#
#     examples/check.sh [PROGRAM]
#
# PROGRAM is the built program (crates/hubsync/out/hubsync if left out). Each row of the table is run: its bundle on
# standard input, its words as arguments. The output is the row's one line, and the text of the file that the row names
# after it; the status is the row's. A line is printed for each wrong answer and for each bundle without a row. Then the
# certificates of each safe bundle are given back to the program, its graphs to Graphviz if `dot` is in PATH, and the state text of a
# folder to the program. The status is 1 if an answer was wrong, else 0.
set -euo pipefail
if [ "${1:-}" = --help ]; then
    sed -n '2,/^set /{ /^#/s/^# \{0,1\}//p }' "${BASH_SOURCE[0]}"
    exit 0
fi
folder=$(dirname "$(readlink -f "${BASH_SOURCE[0]}")")
program=$(readlink -f "${1:-$folder/../crates/hubsync/out/hubsync}")
table=$folder/expected.txt
rows=0
wrong=0
given=0

complain() {
    echo "examples: $*"
    wrong=$((wrong + 1))
}

# Takes the spaces around a table's cell away, and the backquotes.
cell() {
    local text=$1
    text=${text#"${text%%[! ]*}"}
    text=${text%"${text##*[! ]}"}
    text=${text#\`}
    printf '%s' "${text%\`}"
}

if [ ! -x "$program" ]; then
    echo "examples: there is no program at $program"
    exit 1
fi
while IFS='|' read -r _ bundle words output wanted _; do
    bundle=$(cell "$bundle")
    words=$(cell "$words")
    output=$(cell "$output")
    wanted=$(cell "$wanted")
    arguments=()
    if [ -n "$words" ]; then
        mapfile -t arguments < <(xargs printf '%s\n' <<<"$words")
    fi
    # a line, and perhaps a file below it
    below=/dev/null
    if [[ $output == *'` and `'* ]]; then
        below=$folder/${output##*'` and `'}
        output=${output%%'` and `'*}
    fi
    # with the status after a dot, which also keeps the line's end
    answer=$(
        status=0
        "$program" "${arguments[@]}" <"$folder/$bundle" 2>/dev/null || status=$?
        echo ".$status"
    )
    rows=$((rows + 1))
    if [ "$answer" != "$output"$'\n'"$(cat "$below" && echo ".$wanted")" ]; then
        complain "$bundle $words: wanted '$output' and status $wanted, got '${answer%%$'\n'*}' and status ${answer##*.}"
    fi
done < <(grep '^| `' "$table")
for bundle in "$folder"/*.bundle; do
    if ! grep -qF "| \`$(basename "$bundle")\` |" "$table"; then
        complain "$(basename "$bundle") has no row in the table"
    fi
done
# what certify writes of a safe bundle, verify takes
for bundle in "$folder"/*.bundle; do
    if [ "$("$program" check <"$bundle" 2>/dev/null)" = safe ]; then
        answer=$(cat "$bundle" <(echo %certificates) <("$program" certify <"$bundle" 2>/dev/null) | "$program" verify 2>/dev/null) || true
        [ "$answer" = verified ] || complain "$(basename "$bundle"): its certificates are answered by '$answer'"
        given=$((given + 1))
    fi
done
# what `clashes --dot` draws, Graphviz takes
if command -v dot >/dev/null; then
    for bundle in "$folder"/*.bundle; do
        answer=$("$program" clashes --dot <"$bundle" 2>/dev/null) || true
        [[ $answer != graph* ]] || dot -Tsvg <<<"$answer" >/dev/null || complain "$(basename "$bundle"): Graphviz refuses its graph"
    done
else
    echo 'examples: Graphviz was not tried: there is no dot in PATH'
fi
# without profiles no job is run, so the state text of a folder is read, and written as it is
try_folder() {
    local room=$1 name
    mkdir -p "$room/hub/Möbel & so/leer" "$room/hub/a" "$room/other spoke/a"
    for name in 'a/b' 'a-b' ' x' '-n' 'tab	x' 'back\slash' 'Möbel & so/"ß" $x *'; do
        printf '%s\n\0\xff' "$name" >"$room/hub/$name"
    done
    : >"$room/hub/empty"
    cp "$room/hub/a/b" "$room/other spoke/a/b"
    "$folder/../tools/state-of-folder" "$room/other spoke" "$room/hub" -a "$room/hub" "$room/other spoke" >"$room/state"
    cat <(echo %state) "$room/state" | "$program" 2>/dev/null >"$room/answer" || true
    # the replicas change places: their roots' texts are in order then
    cat <(echo safe) <("$folder/../tools/state-of-folder" "$room/hub" "$room/other spoke" -a "$room/hub" "$room/other spoke") |
        cmp -s - "$room/answer"
}
# What `state-of-folder` writes with its options, in a room of its own, where the folders `hub` and `laptop` had the files f1
# and f2 alike before f1 was edited and f2 deleted.
try_options() {
    local script=$folder/../tools/state-of-folder one two eleven
    mkdir -p hub/d laptop/d
    printf 1 | tee hub/d/f1 >laptop/d/f1
    printf 2 | tee hub/d/f2 >laptop/d/f2
    "$script" -a hub laptop >earlier
    printf 11 >laptop/d/f1
    rm laptop/d/f2
    one=$(printf 1 | sha256sum | cut -c 1-64)
    two=$(printf 2 | sha256sum | cut -c 1-64)
    eleven=$(printf 11 | sha256sum | cut -c 1-64)
    "$script" --archives earlier hub laptop >state 2>said
    cmp -s state - <<LINES || return 1
hubsync state 2
$(printf 'blob %s %s\n' "$one" 31 "$two" 32 "$eleven" 3131 | sort)
replica $PWD/hub
dir d
file $one d/f1
file $two d/f2
replica $PWD/laptop
dir d
file $eleven d/f1
archive $PWD/hub
with $PWD/laptop
dir d
file $one d/f1
file $two d/f2
end
LINES
    [ ! -s said ] || return 1
    # a link in one folder, above a file in the other one; and a root of another machine
    ln -s nowhere laptop/e
    mkdir hub/e
    printf 3 >hub/e/f3
    head -c 1048577 /dev/zero >hub/d/f1
    ! "$script" hub laptop >state 2>said && [ ! -s state ] || return 1
    "$script" --leave-out hub --archives earlier --as /hosts/laptop laptop >state 2>said || return 1
    cmp -s state - <<LINES || return 1
hubsync state 2
blob $two 32
replica $PWD/hub
dir d
file $two d/f2
replica /hosts/laptop
dir d
archive $PWD/hub
with $PWD/laptop
dir d
file $two d/f2
end
LINES
    cmp -s said - <<LINES
note: no archive has the root /hosts/laptop
a file of more than 1048576 bytes: $PWD/hub/d/f1
neither a file nor a directory: $PWD/laptop/e
left out of all folders and archives, with what is below: 2
LINES
}
# Words that are wrong give the status 2.
try_words() {
    local words status
    for words in '' '--unknown hub' 'hub hub' '--as x hub' '--as /x hub --as /x/ laptop' 'hub -a hub hub' \
        'hub -a hub laptop -a laptop hub' '--archives earlier hub -a laptop hub'; do
        status=0
        # shellcheck disable=SC2086 # several words
        "$folder/../tools/state-of-folder" $words >state 2>said || status=$?
        [ "$status" = 2 ] && [ ! -s state ] && [ -s said ] || return 1
    done
}
room=$(mktemp -d)
trap 'rm -rf "$room"' EXIT
try_folder "$room" || complain "the state text of a folder is answered by '$(head -1 "$room/answer")'"
mkdir "$room/options"
(cd -P "$room/options" && try_options) || complain 'state-of-folder writes something else with its options'
(cd -P "$room/options" && try_words) || complain 'state-of-folder takes words that are wrong'
[ "$rows" -gt 0 ] || complain 'the table has no rows'
[ "$given" -gt 0 ] || complain 'no bundle is safe'
echo "examples: ${1:-hubsync} answered $rows, $wrong of them wrongly"
[ "$wrong" = 0 ]
