# shellcheck shell=bash
# How the scripts that time answers do so: they read this file with `source`, which leaves it their own arguments. `measure` times
# the program on a bundle in `folder`.
# shellcheck source=bench/head.sh
source "$(dirname "$(readlink -f "${BASH_SOURCE[0]}")")/head.sh"

# What the program writes for `certify` begins with this line, and for `rounds` with their number. All other answers have one line.
header='hubsync certificates 1'

# Runs the program on a file, with the words after the wanted status and the wanted first line. Prints the milliseconds from
# start to end of the process. Ends the script if the answer is another one.
time_once() {
    local file=$1 wanted_status=$2 wanted=$3 status=0 before after first lines
    shift 3
    before=$EPOCHREALTIME
    "$program" "$@" <"$file" >"$folder/answer" || status=$?
    after=$EPOCHREALTIME
    IFS= read -r first <"$folder/answer" || true
    lines=$(wc -l <"$folder/answer")
    if [ "$status" != "$wanted_status" ] || [ "$first" != "$wanted" ] ||
        { [ "$lines" != 1 ] && [[ $first != "$header" && $first != 'rounds '* ]]; }; then
        echo "$script: $(basename "$file" .bundle): status $status and $lines lines '${first:0:100}', wanted $wanted_status and '$wanted'" >&2
        exit 1
    fi
    milliseconds "$before" "$after"
}

# Prints the heads of the columns of `measure`.
print_columns() {
    printf '%-9s %-8s %9s %9s %9s %9s\n' bundle command bytes least/ms middle/ms peak/KiB
}

# Times a bundle of that name, with the status and the first line that are wanted, and the program's words. Prints the
# command, the size of the bundle, the least and the middle time in milliseconds from start to end of the process, and its
# peak memory if GNU time is installed.
measure() {
    local file=$folder/$1.bundle bundle=$1 wanted_status=$2 wanted=$3 i
    shift 3
    for ((i = 0; i < repetitions; i++)); do
        time_once "$file" "$wanted_status" "$wanted" "$@"
    done | sort -n >"$folder/times"
    printf '%-9s %-8s %9s %9s %9s %9s\n' "$bundle" "${1-}" "$(wc -c <"$file")" "$(sed -n 1p "$folder/times")" \
        "$(sed -n $(((repetitions + 1) / 2))p "$folder/times")" "$(peak "$file" "$@")"
}
