#!/usr/bin/env bash
# Times `check`, `certify` and `verify` on large bundles.
#
#     bench/check.sh [PROGRAM [REPETITIONS]]
#
# PROGRAM is the built program (crates/hubsync/out/hubsync if left out), REPETITIONS is 5 if left out. The bundles:
#
# - `paths`: 32 profiles of 64 `path` lines each, over one hub: 992 goals;
# - `overlap`: the same, but the last two profiles overlap, in their last lines;
# - `star`: 32 profiles over one hub, each with 3 `path` lines and 5 patterns: 992 goals, 351,000 stages together;
# - `large`: two profiles with two goals of 19,531 stages and 40 classes each;
# - `rules`: 32 profiles over one hub, each with a path, a pattern and a bar, and 64 rules of the hub: 3,040 goals, 2,048 of them
#   of rules;
# - `shown`: a profile without `path` lines and a rule of 16 pieces, which it may break: 16,000 stages before the path is found;
# - `many`: the same with a rule of 19 pieces, which has more than 100,000 stages;
# - `limit`: 8 profiles of 32 `path` lines, each of 64 names: as many positions as a profile may have;
# - `deep`: 32 profiles of 64 such `path` lines, which are too many.
#
# A line gives the command, the size of the bundle, the least and the middle time in milliseconds from start to end of
# the process, and its peak memory if GNU time is installed. `verify` is given what `certify` wrote. The status is 1 if an
# answer is wrong.
set -euo pipefail
# shellcheck source=bench/timing.sh
source "$(dirname "$(readlink -f "${BASH_SOURCE[0]}")")/timing.sh"

profiles=32

# The lines with which the profile of that number begins. All profiles share the hub.
profile() {
    printf '%%profile team%s\nroot = /srv/hub\nroot = /srv/spoke%s\n' "$1" "$1"
}

# 32 profiles of 64 paths. The last path of the last profile is the given one, if one is.
paths() {
    local number path
    for number in $(seq -w 1 "$profiles"); do
        profile "$number"
        printf "path = shared/team$number/project%s\n" $(seq -w 1 63)
        path=shared/team$number/project64
        if [ "$number" = "$profiles" ]; then
            path=${1:-$path}
        fi
        echo "path = $path"
    done
}

# 32 profiles of 3 paths and 5 patterns.
star() {
    local number
    for number in $(seq -w 1 "$profiles"); do
        profile "$number"
        cat <<LINES
path = team$number/documents
path = team$number/photographs
path = shared/team$number
ignore = Name *.{tmp,bak}
ignore = Name {*~,.#*}
ignore = BelowPath team$number/documents/private
ignore = BelowPath team$number/photographs/copy
ignorenot = Name keep.tmp
LINES
    done
}

# 32 profiles of a path, a pattern and a bar, and 64 rules for folders that nobody reaches.
rules() {
    local number
    for number in $(seq -w 1 "$profiles"); do
        profile "$number"
        cat <<LINES
path = team$number
ignore = Name *.tmp
nocreation = /srv/hub
LINES
    done
    printf '%%rules\nroot = /srv/hub\n'
    printf 'nolose = BelowPath archive/folder%s\n' $(seq -w 1 32)
    printf 'nochange = BelowPath archive/folder%s\n' $(seq -w 1 32)
}

# A profile of the whole replica, and a rule whose pattern remembers for each of so many last characters of a name whether it
# was an `a`.
remembered() {
    profile 1
    printf '%%rules\nroot = /srv/hub\nnolose = Name *a%s\n' "$(printf '?%.0s' $(seq "$1"))"
}

# Two profiles. The first pattern remembers for each of the last 11 characters of a name whether it was an `a`.
large() {
    profile 1
    cat <<'LINES'
path = bcdefghijklm
ignore = Name *a??????????
ignore = BelowPath bcdefghijklm/n
ignore = BelowPath bcdefghijklm/o
ignore = BelowPath bcdefghijklm/p
ignore = BelowPath bcdefghijklm/q
ignore = Path bcdefghijklm/*r
LINES
    profile 2
    echo 'path = nopqrstuvwxyz_0123456789'
}

# So many profiles of so many paths, each of 64 names of one character, of which only the last two differ.
deep() {
    local number path above letters=abcdefghijklmnopqrstuvwxyz012345
    letters+=ABCDEFGHIJKLMNOPQRSTUVWXYZ6789-_
    above=$(printf 'a/%.0s' $(seq 62))
    for ((number = 0; number < $1; number++)); do
        profile "$number"
        for ((path = 0; path < $2; path++)); do
            echo "path = $above${letters:number:1}/${letters:path:1}"
        done
    done
}

# Times `check`, `certify` and `verify` of a safe bundle of that name, and says how many goals and stages it has.
measure_safe() {
    local certificates=$folder/$1.certificates
    measure "$1" 0 safe check
    measure "$1" 0 "$header" certify
    "$program" certify <"$folder/$1.bundle" >"$certificates"
    cat "$folder/$1.bundle" <(echo %certificates) "$certificates" >"$folder/$1+.bundle"
    measure "$1+" 0 verified verify
    echo "$1 has $(grep -c ^goal "$certificates") goals and $(grep -c ^stage "$certificates") stages"
}

paths >"$folder/paths.bundle"
paths shared/team31/project64/notes >"$folder/overlap.bundle"
star >"$folder/star.bundle"
large >"$folder/large.bundle"
rules >"$folder/rules.bundle"
remembered 14 >"$folder/shown.bundle"
remembered 17 >"$folder/many.bundle"
deep 8 32 >"$folder/limit.bundle"
deep 32 64 >"$folder/deep.bundle"

echo "$repetitions repetitions"
print_columns
measure deep 1 'refused: TooManySpots' check
measure overlap 1 'overlap: team31 writes shared/team31/project64 at /srv/hub, team32 reaches shared/team31/project64/notes' check
measure shown 1 'breach: team1 may delete abbbbbbbbbbbbbb at /srv/hub, rule 0' check
measure many 1 'too large: goal 0 has more than 100000 stages' check
measure_safe rules
measure_safe paths
measure_safe star
measure_safe large
measure_safe limit
