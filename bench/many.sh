#!/usr/bin/env bash
# Times `check --unison` and `rounds --unison` of many profiles.
#
#     bench/many.sh [PROGRAM [REPETITIONS]]
#
# PROGRAM is the built program (crates/hubsync/out/hubsync if left out), REPETITIONS is 5 if left out. The bundles are 1,000 and 10,000
# profiles over one hub, each with 8 `path` lines and 5 patterns. Every second profile has a path within one of the profile before it:
#
# - `safe1000`, `safe10000`: that one ignores the path, and bars keep the folders above it, so no two clash;
# - `part1000`, `part10000`: the two clash, so there are two rounds.
#
# A line gives the command, the size of the bundle, the least and the middle time in milliseconds from start to end of the process, and its
# peak memory if GNU time is installed. The status is 1 if an answer is wrong.
set -euo pipefail
# shellcheck source=bench/timing.sh
source "$(dirname "$(readlink -f "${BASH_SOURCE[0]}")")/timing.sh"

# So many profiles. If they are to be safe, the first one of each two has further lines.
pairs() {
    awk -v count="$1" -v is_safe="$2" 'BEGIN {
        hub = "/srv/hub"
        for (number = 0; number < count; number++) {
            shared = sprintf("shared/pair%04d/plans", number / 2)
            printf "%%profile team%d\nroot = %s\nroot = /srv/spoke%d\n", number, hub, number
            for (path = 1; path <= 7; path++)
                printf "path = team%d/folder%d\n", number, path
            print "path = " shared (number % 2 ? "/office" : "")
            print "ignore = Name *.{tmp,bak}"
            print "ignore = Name {*~,.#*}"
            printf "ignore = BelowPath team%d/folder1/private\n", number
            print "ignorenot = Name keep.tmp"
            if (is_safe && number % 2 == 0) {
                print "ignore = Path " shared "/office"
                print "noupdatepartial = Path " shared " -> " hub
                print "nocreationpartial = Path " shared " -> " hub
            } else
                printf "ignore = BelowPath team%d/folder2/copy\n", number
        }
    }'
}

# Times a bundle, without what is said on standard error of each answer.
measure_pairs() {
    measure "$@" 2> >(grep -v '^hubsync: ' >&2)
}

echo "$repetitions repetitions"
print_columns
for count in 1000 10000; do
    pairs "$count" 1 >"$folder/safe$count.bundle"
    pairs "$count" 0 >"$folder/part$count.bundle"
    measure_pairs "safe$count" 0 safe check --unison
    measure_pairs "part$count" 0 'rounds 2' rounds --unison
done
