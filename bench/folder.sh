#!/usr/bin/env bash
# Times `check --unison` on folders of profiles.
#
#     bench/folder.sh [PROGRAM [REPETITIONS]]
#
# PROGRAM is the built program (crates/hubsync/out/hubsync if left out), REPETITIONS is 5 if left out. The folders:
#
# - `office`: 60 profiles over one hub and roots of 60 other machines, each with a file that all of them include;
# - `files`: a profile that includes 999 files of one line each;
# - `chains`: 100 profiles, each of which includes the first of 90 files that include each other.
#
# A line gives the folder, the least and the middle time in milliseconds from start to end of the process, and its peak memory if GNU
# time is installed. The status is 1 if an answer is wrong.
set -euo pipefail
# shellcheck source=bench/timing.sh
source "$(dirname "$(readlink -f "${BASH_SOURCE[0]}")")/timing.sh"

# Writes a profile of the hub and a spoke, with these further lines.
put_profile() {
    printf '%s\n' 'root = /srv/hub' "root = $2" "${@:3}" >"$1"
}

mkdir "$folder/office" "$folder/files" "$folder/chains"
printf '%s\n' 'ignore = Name *.tmp' 'ignore = Name .cache' 'prefer = newer' 'batch = true' >"$folder/office/common"
for number in {1..60}; do
    put_profile "$folder/office/pc$number.prf" "ssh://pc$number//srv" 'include common' "path = desk$number"
    echo "pc$number /hosts/pc$number"
done >"$folder/hosts"

put_profile "$folder/files/docs.prf" /srv/docs
for number in {1..999}; do
    echo "source part$number" >>"$folder/files/docs.prf"
    echo "# part $number" >"$folder/files/part$number"
done

for number in {1..100}; do
    put_profile "$folder/chains/pc$number.prf" "/srv/pc$number" 'source file1' "path = desk$number"
done
for number in {1..89}; do
    echo "source file$((number + 1))" >"$folder/chains/file$number"
done
echo 'ignore = Name *.tmp' >"$folder/chains/file90"

# Times the folder of that name, with further words. Standard input, which isn't read, is an empty bundle.
measure_folder() {
    : >"$folder/$1.bundle"
    measure "$1" 0 safe check --unison "$folder/$1" "${@:2}" 2> >(grep -v '^hubsync: ' >&2)
}

print_columns
measure_folder office --hosts "$folder/hosts"
measure_folder files
measure_folder chains
