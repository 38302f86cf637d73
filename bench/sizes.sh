#!/usr/bin/env bash
# Times the program on inputs that are large in one way. The time should grow with the size of the input, not faster.
#
#     bench/sizes.sh [PROGRAM [REPETITIONS]]
#
# PROGRAM is the built program (crates/hubsync/out/hubsync if left out), REPETITIONS is 5 if left out. Each input is tried in
# two sizes, of which the second is twice as large:
#
# - `blank`, `comments`, `settings`: a profile of 500,000 and 1,000,000 blank lines, comments, or lines `auto = true`;
# - `sections`: 100,000 and 200,000 profiles;
# - `rooted`: rules with 250,000 and 500,000 `root` lines and no rule;
# - `comment`, `name`, `value`: a profile with a line of 32 and 64 MB: a comment, the name of a preference, a path;
# - `heading`: a heading of 32 and 64 MB;
# - `field`, `path`: a state with a line of 32 and 64 MB: the bytes of a file, the path of a directory;
# - `stage`: certificates with a line of 32 and 64 MB;
# - `stages`: certificates of 1,000 and 2,000 stages of 4,096 characters;
# - `levels`: 50,000 and 100,000 entries, in chains of 64 directories;
# - `replicas`: 250,000 and 500,000 replicas of no profile;
# - `archives`: 125,000 and 250,000 archives of one root with others;
# - `long`: 32,000 and 64,000 entries with names of 255 bytes;
# - `reached`, `carried`: 32,000 and 64,000 such entries, or 6,400 and 12,800 in chains, which a job brings to the other side.
#
# A line gives the command, the size of the bundle, the least and the middle processor time in milliseconds, the peak memory if
# GNU time is installed, and how many times longer the second size took than the first, by the least times. The last line names
# those that took more than 3 times as long, of 20 ms and more. The status is 1 if an answer is wrong, or if one of them did.
set -euo pipefail
set -- "${1:-}" "${2:-5}"
[ -n "$1" ] || set -- "$(dirname "$(dirname "$(readlink -f "${BASH_SOURCE[0]}")")")/crates/hubsync/out/hubsync" "$2"
# shellcheck source=bench/timing.sh
source "$(dirname "$(readlink -f "${BASH_SOURCE[0]}")")/timing.sh"
slow=''

roots=$'root = /srv/hub\nroot = /srv/s1'

# That many lines of a text.
lines() {
    head -n "$1" < <(yes "$2")
}

# That many times one character.
letters() {
    head -c "$1" /dev/zero | tr '\0' "$2"
}

# A state without profiles, with the lines of standard input.
state() {
    printf '%s\n' %state 'hubsync state 1'
    cat
    echo end
}

# That many entries, in chains of 64 directories.
chains() {
    awk -v count="$1" 'BEGIN {
        for (i = 0; i < count; i++) {
            path = i % 64 == 0 ? "c" int(i / 64) : path "/d"
            print "dir " path
        }
    }'
}

# That many directories whose names have 255 bytes.
long_names() {
    awk -v count="$1" 'BEGIN {
        tail = sprintf("%0249d", 0)
        for (i = 0; i < count; i++) printf "dir %06d%s\n", i, tail
    }'
}

# Times a question in both sizes. The input is made by a function, which is given the size.
#
#     try NAME SMALL-SIZE WANTED-STATUS WANTED-START WORD..
try() {
    local name=$1 size=$2 status=$3 wanted=$4 times=() each ratio
    shift 4
    for each in "$size" $((2 * size)); do
        "make_$name" "$each" >"$folder/$name.bundle"
        for ((i = 0; i < repetitions; i++)); do
            time_answer "$folder/$name.bundle" "$status" "$wanted" "$@"
        done | sort -n >"$folder/times"
        times+=("$(sed -n 1p "$folder/times")")
        printf '%-9s %-8s %9s %9s %9s %9s' "$name" "${1-}" "$(wc -c <"$folder/$name.bundle")" "${times[-1]}" \
            "$(sed -n $(((repetitions + 1) / 2))p "$folder/times")" "$(peak "$folder/$name.bundle" "$@")"
        if [ "${#times[@]}" = 2 ]; then
            ratio=$(awk -v a="${times[0]}" -v b="${times[1]}" 'BEGIN { printf "%.2f", b / (a > 0 ? a : 1) }')
            printf ' %7s' "$ratio"
            awk -v r="$ratio" -v b="${times[1]}" 'BEGIN { exit !(r > 3 && b >= 20) }' && slow+=" $name"
        fi
        echo
        rm "$folder/$name.bundle"
    done
}

# Runs the program on a file, with the words after the wanted status and the wanted start of the answer. Prints the milliseconds of
# processor time that it took. Ends the script if the answer is another one.
time_answer() {
    local file=$1 wanted_status=$2 wanted=$3 status=0 first TIMEFORMAT='%3U %3S'
    shift 3
    { time "$program" "$@" <"$file" >"$folder/answer" || status=$?; } 2>"$folder/time"
    IFS= read -r first < <(head -c 200 "$folder/answer" && echo) || true
    if [ "$status" != "$wanted_status" ] || [[ $first != "$wanted"* ]]; then
        echo "$script: $(basename "$file" .bundle): status $status and '$first', wanted $wanted_status and '$wanted'" >&2
        exit 1
    fi
    awk '{ printf "%.0f\n", ($1 + $2) * 1000 }' "$folder/time"
}

make_blank() { printf '%%profile p\n%s\n' "$roots" && lines "$1" ' '; }
make_comments() { printf '%%profile p\n%s\n' "$roots" && lines "$1" '# comment'; }
make_settings() { printf '%%profile p\n%s\n' "$roots" && lines "$1" 'auto = true'; }
make_sections() { awk -v count="$1" 'BEGIN { for (i = 0; i < count; i++) printf "%%profile p%d\nroot = /a%d\nroot = /b%d\n", i, i, i }'; }
make_rooted() { echo %rules && lines "$1" 'root = /srv/hub'; }
make_comment() { printf '%%profile p\n%s\n#' "$roots" && letters "$1" x; }
make_name() { printf '%%profile p\n%s\n' "$roots" && letters "$1" x && echo ' = x'; }
make_value() { printf '%%profile p\n%s\npath = ' "$roots" && letters "$1" x; }
make_heading() { printf '%%profile ' && letters "$1" x; }
make_field() { { printf 'replica /a\nfile ' && letters "$1" 0 && echo ' a'; } | state; }
make_path() { { printf 'replica /a\ndir ' && letters "$1" x && echo; } | state; }
make_stage() { { printf '%%profile p\n%s\n%%certificates\n%s\ngoal clash 0 0 archive\nstage ' "$roots" "$header" && letters "$1" 6 && printf '\nend\n'; }; }
make_stages() { { printf '%%profile p\n%s\n%%certificates\n%s\ngoal clash 0 0 archive\n' "$roots" "$header" && lines "$1" "stage $(letters 8192 6)" && echo end; }; }
make_levels() { { echo 'replica /a' && chains "$1"; } | state; }
make_replicas() { seq "$1" | sed 's|^|replica /r|' | state; }
make_archives() { seq "$1" | sed 's|.*|archive /r\nwith /r&|' | state; }
make_long() { { echo 'replica /a' && long_names "$1"; } | state; }
make_reached() { printf '%%profile p\n%s\n' "$roots" && { echo 'replica /srv/hub' && long_names "$1" && echo 'replica /srv/s1'; } | state; }
make_carried() { printf '%%profile p\n%s\n' "$roots" && { echo 'replica /srv/hub' && chains "$1" && echo 'replica /srv/s1'; } | state; }

echo "$repetitions repetitions"
printf '%-9s %-8s %9s %9s %9s %9s %7s\n' bundle command bytes least/ms middle/ms peak/KiB times
million=1000000
try blank $((million / 2)) 0 safe
try comments $((million / 2)) 0 safe
try settings $((million / 2)) 0 safe
try sections 100000 1 'refused: TooManyProfiles'
try rooted 250000 0 safe
try comment $((32 * million)) 0 safe
try name $((32 * million)) 2 'fault: profile p line 3: UnknownPreference xxx'
try value $((32 * million)) 2 'fault: profile p line 3: BadPath NameTooLong'
try heading $((32 * million)) 2 'fault: bundle line 1: BadName'
try field $((32 * million)) 2 'fault: state line 3: TooLarge'
try path $((32 * million)) 2 'fault: state line 3: BadPath'
try stage $((32 * million)) 1 'refused: certificate 0 Stray' verify
try stages 1000 1 'refused: certificate 0 Stray' verify
try levels 50000 0 safe
try replicas 250000 0 safe
try archives 125000 0 safe
try long 32000 0 safe
try reached 32000 0 safe run
try carried 6400 0 safe run
echo "more than 3 times as long:${slow:- none}"
[ -z "$slow" ]
