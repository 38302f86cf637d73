#!/usr/bin/env bash
# Times runs of jobs, and compares each answer with the right one, byte by byte.
#
#     bench/run.sh [PROGRAM [REPETITIONS]]
#
# PROGRAM is the built program (crates/hubsync/out/hubsync if left out), REPETITIONS is 5 if left out. The bundles:
#
# - `same`: one profile, 99,000 entries: the hub, the spoke and their archive agree (aim: under 1 s);
# - `new`: one profile: the hub has 99,000 entries, and the spoke has none (aim: under 2 s);
# - `same10`, `new10`: the same with 10,000 entries (aim: with 99,000 an entry takes at most 1.15 times as long);
# - `star`, `starnew`: the entries of `same` and of `new` in a star of 32 spokes, each with a profile (aim: at most 1.3 times
#   the time of `same` and of `new`);
# - `files64`: one profile: the hub has 64 files of 1 MiB, and the spoke has none.
#
# A line gives the size of the bundle, the least time of `cat` on the bundle and on the answer, the least time of the
# program from start to end of the process, in milliseconds, and its peak memory, also in sizes of the larger text of the two,
# if GNU time is installed (aim: under 6). Then a line for each aim says what was measured. The stars are run by 4 workers and by
# one, too (aim: no more time). The status is 1 if an answer is
# wrong, whatever the times are.
set -euo pipefail
# shellcheck source=bench/timing.sh
source "$(dirname "$(readlink -f "${BASH_SOURCE[0]}")")/timing.sh"

bytes=$(printf '%040d' 0)
digest=$(head -c 20 /dev/zero | sha256sum | cut -d ' ' -f 1)

# The lines of so many files and directories in 32 directories, of which only those from the third word to the fourth are
# printed. The second word stands for what each file has.
entries() {
    awk -v entries="$1" -v field="$2" -v first="${3:-1}" -v last="${4:-32}" 'BEGIN {
        for (t = first; t <= last; t++) {
            count = int(entries * t / 32) - int(entries * (t - 1) / 32)
            team = sprintf("team%02d", t)
            print "dir " team
            for (i = 1; i < count; i++) {
                if (i % 100 == 1) {
                    folder = sprintf("%s/folder%03d", team, i / 100)
                    print "dir " folder
                } else
                    printf "file %s %s/file%05d.txt\n", field, folder, i
            }
        }
    }'
}

# One profile, or one for each spoke of the star.
one_profile() {
    printf '%%profile all\nroot = /srv/hub\nroot = /srv/spoke\n'
}
star_profiles() {
    seq -w 1 32 | sed 's|.*|%profile team&\nroot = /srv/hub\nroot = /srv/spoke&\npath = team&|'
}

# The state in which the hub has so many entries, and the spokes have the same, and the archives; or in which the spokes have
# nothing.
one_agreed() {
    {
        printf 'replica /srv/hub\n%s\n' "$(entries "$1" "$bytes")"
        printf 'replica /srv/spoke\n%s\n' "$(entries "$1" "$bytes")"
        printf 'archive /srv/hub\nwith /srv/spoke\n%s\n' "$(entries "$1" "$digest")"
    } | state
}
one_fresh() {
    printf 'replica /srv/hub\n%s\nreplica /srv/spoke\n' "$(entries "$1" "$bytes")" | state
}
star_agreed() {
    local spoke
    {
        printf 'replica /srv/hub\n%s\n' "$(entries "$1" "$bytes")"
        for spoke in $(seq -w 1 32); do
            printf 'replica /srv/spoke%s\n%s\n' "$spoke" "$(entries "$1" "$bytes" "$((10#$spoke))" "$((10#$spoke))")"
        done
        for spoke in $(seq -w 1 32); do
            printf 'archive /srv/hub\nwith /srv/spoke%s\n%s\n' "$spoke" \
                "$(entries "$1" "$digest" "$((10#$spoke))" "$((10#$spoke))")"
        done
    } | state
}
star_fresh() {
    {
        printf 'replica /srv/hub\n%s\n' "$(entries "$1" "$bytes")"
        seq -f 'replica /srv/spoke%02.0f' 32
    } | state
}

# What is written above the new state, where nothing went, or all that the hub has.
one_same() {
    printf 'safe\njob all finished\n'
}
one_went() {
    one_same
    seq -f 'to /srv/spoke team%02.0f' 32
}
star_same() {
    echo safe
    seq -f 'job team%02.0f finished' 32
}
star_went() {
    echo safe
    seq -w 1 32 | sed 's|.*|job team& finished\nto /srv/spoke& team&|'
}

# Writes the bundle and the answer of that name: from profiles and a state, and from lines and a state.
prepare() {
    local name=$1 profiles=$2 opening=$3 lines=$4 closing=$5 count=$6
    { "$profiles"; echo %state; "$opening" "$count"; } >"$folder/$name.bundle"
    { "$lines"; "$closing" "$count" | in_version_2; } >"$folder/$name.answer"
}

# The same of 64 files of 1 MiB, of bytes that are different each time.
prepare_files() {
    local file
    for file in $(seq -w 1 64); do
        head -c 1048576 /dev/urandom >"$folder/bytes"
        echo "file $(od -An -v -tx1 "$folder/bytes" | tr -d ' \n') file$file" >>"$folder/files"
        echo "file $(sha256sum "$folder/bytes" | cut -d ' ' -f 1) file$file" >>"$folder/marks"
    done
    { echo 'replica /srv/hub'; cat "$folder/files"; echo 'replica /srv/spoke'; } | state >"$folder/opening"
    {
        echo 'replica /srv/hub'
        cat "$folder/files"
        echo 'replica /srv/spoke'
        cat "$folder/files"
        printf 'archive /srv/hub\nwith /srv/spoke\n'
        cat "$folder/marks"
    } | state | in_version_2 >"$folder/closing"
    { one_profile; echo %state; cat "$folder/opening"; } >"$folder/files64.bundle"
    { one_same; seq -f 'to /srv/spoke file%02.0f' 64; cat "$folder/closing"; } >"$folder/files64.answer"
}

# The milliseconds of one run on the bundle of that name, by words on the command line if there are more. Ends the script if the
# answer is another one.
time_run() {
    local before after status=0
    before=$EPOCHREALTIME
    "$program" "${@:2}" <"$folder/$1.bundle" >"$folder/answer" 2>"$folder/errors" || status=$?
    after=$EPOCHREALTIME
    if [ "$status" != 0 ] || ! cmp -s "$folder/answer" "$folder/$1.answer"; then
        echo "$script: $1: status $status, and $(wc -c <"$folder/answer") bytes '$(head -c 100 "$folder/answer")': wanted 0 and" \
            "$(wc -c <"$folder/$1.answer") bytes" >&2
        exit 1
    fi
    milliseconds "$before" "$after"
}

# The milliseconds that `cat` takes for the bundle and the answer of that name.
time_cat() {
    local before after
    before=$EPOCHREALTIME
    cat "$folder/$1.bundle" "$folder/$1.answer" >"$folder/copy"
    after=$EPOCHREALTIME
    milliseconds "$before" "$after"
}

# The least of the numbers that a command prints, which is run again and again.
least() {
    local i
    for ((i = 0; i < repetitions; i++)); do
        "$@"
    done >"$folder/times"
    sort -n "$folder/times" | head -n 1
}

# Times the bundle of that name. Sets `times` of the name.
declare -A times
measure_run() {
    local name=$1 larger peak
    larger=$(wc -c "$folder/$name.bundle" "$folder/$name.answer" | sort -n | tail -n 2 | awk 'NR == 1 { print $1 }')
    times[$name]=$(least time_run "$name")
    peak=$(peak "$folder/$name.bundle")
    printf '%-8s %10s %9s %10s %9s %6s\n' "$name" "$(wc -c <"$folder/$name.bundle")" "$(least time_cat "$name")" \
        "${times[$name]}" "$peak" "$(in_sizes "$peak" "$larger")"
}

# Says how two measured times compare, each divided by a number, and what the aim is.
compare() {
    awk -v what="$1" -v time="$2" -v by="$3" -v other="$4" -v other_by="$5" -v aim="$6" 'BEGIN {
        printf "%s: %.2f times (aim: at most %s)\n", what, (time / by) / (other / other_by), aim
    }'
}

prepare same one_profile one_agreed one_same one_agreed 33000
prepare same10 one_profile one_agreed one_same one_agreed 3333
prepare new one_profile one_fresh one_went one_agreed 99000
prepare new10 one_profile one_fresh one_went one_agreed 9999
prepare star star_profiles star_agreed star_same star_agreed 33000
prepare starnew star_profiles star_fresh star_went star_agreed 99000
prepare_files

echo "$repetitions repetitions"
printf '%-8s %10s %9s %10s %9s %6s\n' bundle bytes cat/ms whole/ms peak/KiB sizes
for name in same10 same new10 new star starnew files64; do
    measure_run "$name"
done
echo "same: ${times[same]} ms (aim: under 1000)"
echo "new: ${times[new]} ms (aim: under 2000)"
compare 'same, an entry of 99,000 to one of 10,000' "${times[same]}" 99000 "${times[same10]}" 9999 1.15
compare 'new, an entry of 99,000 to one of 10,000' "${times[new]}" 99000 "${times[new10]}" 9999 1.15
compare 'star to same' "${times[star]}" 1 "${times[same]}" 1 1.3
compare 'starnew to new' "${times[starnew]}" 1 "${times[new]}" 1 1.3
for name in star starnew; do
    compare "$name, 4 workers to one" "$(least time_run "$name" run --workers 4)" 1 \
        "$(least time_run "$name" run --workers 1)" 1 1
done
