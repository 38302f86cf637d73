#!/usr/bin/env bash
# Times `hubsync reach` on a profile of 64 `ignore` lines, as many as one may have.
#
#     bench/reach.sh [PROGRAM [REPETITIONS]]
#
# PROGRAM is the built program (crates/hubsync/out/hubsync if left out), REPETITIONS is 5 if left out. Four bundles are
# tried, and in each of them every pattern is tried on every prefix of the path:
#
# - `open`: patterns of all kinds, none of which matches a prefix of a path of 64 names;
# - `ignored`: the same, except that the last one matches the whole path;
# - `stars`: 20 stars in each pattern, which nearly match a name of 200 letters: trying all the ways to cut the name up
#   would never end;
# - `deep`: the same patterns, on a path of 64 such names.
#
# A line gives the size of the bundle, the least and the middle time in milliseconds from start to end of the process,
# and its peak memory if GNU time is installed. The status is 1 if an answer is wrong.
set -euo pipefail
# shellcheck source=bench/timing.sh
source "$(dirname "$(readlink -f "${BASH_SOURCE[0]}")")/timing.sh"

lines=64
names=64

# A text so many times, with another one between.
repeat() {
    local text=$1 i
    for ((i = 1; i < $2; i++)); do
        text+=$3$1
    done
    printf '%s' "$text"
}

# An `ignore` line of that number, which matches no prefix of `long_path`.
varied_line() {
    case $(($1 % 8)) in
    0) echo "ignore = Name *-report.d~$1" ;;
    1) echo "ignore = Name {*.tmp,*.bak,.#*,*-report.o}$1" ;;
    2) echo "ignore = Name step[0-9][0-9]-[a-q]*$1" ;;
    3) echo "ignore = Path work/*/*/*/*/*/*/*/*/private$1" ;;
    4) echo "ignore = Path work/{$(repeat 'step??-report.d/*' 8 /),notes}/*.tmp$1" ;;
    5) echo "ignore = BelowPath work/step02-report.d/{docs,*-report.d/old,*/*/new}$1" ;;
    6) echo "ignore = BelowPath $(repeat '*' 32 /)/private$1" ;;
    7) echo "ignore = BelowPath */*?report?d/*[a-z]{,.d}/.{git,svn}$1" ;;
    esac
}

# An `ignore` line of that number with 20 stars, which matches no name of letters `a` alone.
star_line() {
    echo "ignore = Name $(repeat '*a' 20 '')b$1"
}

# The bundle of one profile, whose `ignore` lines are of that kind, except for the last one, which is given.
bundle() {
    local line
    printf '%%profile p\nroot = /srv/hub\nroot = /srv/spoke\npath = work\n'
    for ((line = 1; line < lines; line++)); do
        "$1" "$line"
    done
    echo "$2"
}

long_path=work
for number in $(seq -w 2 "$names"); do
    long_path+=/step$number-report.d
done
long_name=$(repeat a 200 '')

bundle varied_line "$(varied_line "$lines")" >"$folder/open.bundle"
bundle varied_line "ignore = Name step$names-*" >"$folder/ignored.bundle"
bundle star_line "$(star_line "$lines")" >"$folder/stars.bundle"
cp "$folder/stars.bundle" "$folder/deep.bundle"

echo "$lines patterns, $repetitions repetitions"
print_columns
measure open 0 reached reach p "$long_path"
measure ignored 0 'not reached' reach p "$long_path"
measure stars 0 reached reach p "work/$long_name"
measure deep 0 reached reach p "work/$(repeat "$long_name" $((names - 1)) /)"
