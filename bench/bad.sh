#!/usr/bin/env bash
# Times `verify` on certificates that are wrong and large. The time should grow with the size of the input, not faster.
#
#     bench/bad.sh [PROGRAM [REPETITIONS]]
#
# PROGRAM is the built program (crates/hubsync/out/hubsync if left out), REPETITIONS is 5 if left out. Each input is tried in
# two sizes, of which the second is twice as large:
#
# - `alike`: a certificate of 500,000 and 1,000,000 stages that are all the same;
# - `texts`: the same number of different texts;
# - `long`: 1,000 and 2,000 stages of 4,096 characters;
# - `wide`: one stage of 2,000,000 and 4,000,000 characters;
# - `notutf8`: 500,000 and 1,000,000 stages, of which the last one is not UTF-8;
# - `endless`: the same number of stages, and no `end`;
# - `repeated`: one goal 496 and 992 times, with 354 stages each;
# - `stray`: 500,000 and 1,000,000 times the goal of a profile that isn't there.
#
# A line gives the command, the size of the bundle, the least and the middle time in milliseconds from start to end of the
# process, and its peak memory if GNU time is installed. The status is 1 if an answer is wrong.
set -euo pipefail
# shellcheck source=bench/timing.sh
source "$(dirname "$(readlink -f "${BASH_SOURCE[0]}")")/timing.sh"

# A bundle of two profiles, and the lines of standard input as its certificates, after their header.
bundle() {
    cat <<LINES
%profile a
root = /srv/hub
root = /srv/spoke1
path = a
%profile b
root = /srv/hub
root = /srv/spoke2
path = b
%certificates
$header
LINES
    cat
}

# That many lines of a stage of this text, in hex.
stages() {
    head -n "$1" < <(yes "stage $2")
}

# That many letters `c`, in hex.
letters() {
    printf "%0$1d" 0 | sed 's/0/63/g' | tr -d '\n'
}

goal='goal clash 0 1 root 0'

echo "$repetitions repetitions"
print_columns
for half in 2 1; do
    many=$((1000000 / half))
    { echo "$goal"; stages "$many" -; echo end; } | bundle >"$folder/alike.bundle"
    measure alike 1 'refused: goal 0 stage 0 class 0 NotClosed' verify

    # a number in hex: a 3 before each digit
    { echo "$goal"; echo 'stage -'; seq "$many" | sed 's/./3&/g; s/^/stage /'; echo end; } | bundle >"$folder/texts.bundle"
    measure texts 1 'refused: goal 0 stage 0 class 1 NotClosed' verify

    { echo "$goal"; stages $((2000 / half)) "$(letters 4096)"; echo end; } | bundle >"$folder/long.bundle"
    measure long 1 'refused: goal 0 NoStart' verify

    { printf '%s\nstage ' "$goal"; letters $((4000000 / half)); printf '\nend\n'; } | bundle >"$folder/wide.bundle"
    measure wide 1 'refused: goal 0 NoStart' verify

    { echo "$goal"; stages "$many" 63; echo 'stage c3'; echo end; } | bundle >"$folder/notutf8.bundle"
    measure notutf8 2 "fault: certificates line $((many + 3)): BadText" verify

    { echo "$goal"; stages "$many" 63; } | bundle >"$folder/endless.bundle"
    measure endless 2 "fault: certificates line $((many + 3)): BadText" verify

    for ((i = 0; i < 992 / half; i++)); do
        echo "$goal"
        stages 354 63
    done | cat - <(echo end) | bundle >"$folder/repeated.bundle"
    measure repeated 1 'refused: certificate 1 Stray' verify

    { head -n "$many" < <(yes 'goal clash 0 9 archive'); echo end; } | bundle >"$folder/stray.bundle"
    measure stray 1 'refused: certificate 0 Stray' verify
done
