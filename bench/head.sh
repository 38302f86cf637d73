# shellcheck shell=bash
# The head of the scripts of this folder and of tests/fail.sh: they read this file with `source`, which leaves it their own arguments.
#
# It sets `script` and `top`, and `program` and `repetitions` by the arguments: the built `hubsync` and 5 if nothing else is said. It
# makes `folder`, which is gone at the end.
script=$(basename "$(dirname "$(readlink -f "$0")")")/$(basename "$0")
top=$(dirname "$(dirname "$(readlink -f "${BASH_SOURCE[0]}")")")

# The place of a crate's program, as `./prove` builds it.
built() {
    echo "$top/crates/$1/out/$1"
}

# Ends the script if one of these programs isn't built.
need() {
    local each
    for each in "$@"; do
        if [ ! -x "$each" ]; then
            echo "$script: no program at $each: build it with ./prove and the name of its crate" >&2
            exit 2
        fi
    done
}

program=${1:-$(built hubsync)}
# shellcheck disable=SC2034 # the scripts read it
repetitions=${2:-5}
need "$program"
folder=$(mktemp -d)
trap 'rm -rf "$folder"' EXIT

# The text of a state with the sections on standard input.
state() {
    echo 'hubsync state 1'
    cat
    echo end
}

# The same state as that of a text of version 1, as it is written: in version 2.
in_version_2() {
    perl -MDigest::SHA=sha256_hex -ne '
        s/^hubsync state 1$/hubsync state 2/;
        $is_replica = /^replica / if /^(?:replica|archive) /;
        if ($is_replica && /^file ([0-9a-f]+|-) (.*)/) {
            my $digest = sha256_hex(pack "H*", $1 eq "-" ? "" : $1);
            $blobs{$digest} = $1;
            $_ = "file $digest $2\n";
        }
        push @lines, $_;
        END { print shift @lines, map { "blob $_ $blobs{$_}\n" } sort keys %blobs; print @lines }'
}

# Milliseconds between two readings of EPOCHREALTIME, to three places.
milliseconds() {
    local microseconds=$((10#${2/[.,]/} - 10#${1/[.,]/}))
    printf '%d.%03d\n' $((microseconds / 1000)) $((microseconds % 1000))
}

# The peak memory in KiB of a run on this file, with the words after it, if GNU time is installed.
peak() {
    local file=$1
    shift
    if [ -x /usr/bin/time ]; then
        /usr/bin/time -f %M -o "$folder/peak" "$program" "$@" <"$file" >/dev/null 2>&1 || true
        tail -n 1 "$folder/peak"
    else
        echo -
    fi
}

# This memory in sizes of a text of so many bytes.
in_sizes() {
    awk -v peak="$1" -v bytes="$2" 'BEGIN { if (peak == "-") print peak; else printf "%.1f\n", peak * 1024 / bytes }'
}
