# shellcheck shell=bash disable=SC2154
# Hostile inputs that are made: too long for a table, forged, cut, or read byte by byte. `answers.sh` reads this file with
# `source`, and it uses what stands there: `room`, `program`, `ask`, `judge`, `judge_remarks` and `complain`.

# A text, so many times.
#
#     times COUNT TEXT
times() {
    local text
    printf -v text '%0*d' "$1" 0
    printf '%s' "${text//0/$2}"
}

# A profile with these further lines.
profile_with() {
    printf '%s\n' '%profile p' 'root = /srv/hub' 'root = /srv/s1' "$@"
}

# Asks about the file `input`, and compares the first lines that are written with the file `wanted`, which has so many.
#
#     ask_first PLACE WANTED-STATUS COUNT WORD..
ask_first() {
    local status=0
    "$program" "${@:4}" <"$room/input" >"$room/whole" 2>"$room/errors" || status=$?
    head -n "$3" "$room/whole" >"$room/output"
    judge "$1" "$2" "$status" || true
    judge_remarks "$1"
}

# Asks a question that gets one line.
#
#     ask_line PLACE WANTED-STATUS WANTED-LINE WORD..
ask_line() {
    echo "$3" >"$room/wanted"
    ask "$1" "$2" '' hubsync "${@:4}"
}

# Asks about the file `input` byte by byte, and compares the answer with the file `wanted`: `dd` puts the pipe into packet mode,
# so that each read gets one byte.
#
#     ask_bytes PLACE WANTED-STATUS NAME WORD..
ask_bytes() {
    local status=0
    dd bs=1 oflag=direct status=none <"$room/input" |
        (exec -a "$3" "$program" "${@:4}") >"$room/output" 2>"$room/errors" || status=$?
    judge "$1, byte by byte" "$2" "$status" || true
}

# A name has up to 255 bytes, a path up to 64 names, and a profile up to 64 paths.
ask_limits() {
    local lines
    profile_with "path = $(times 255 a)" >"$room/input"
    ask_line 'a name of 255 bytes' 0 safe
    profile_with "path = $(times 256 a)" >"$room/input"
    ask_line 'a name of 256 bytes' 2 'fault: profile p line 3: BadPath NameTooLong'
    profile_with "path = $(times 85 ä)$(times 85 a)" >"$room/input"
    ask_line 'a name of 255 bytes and 170 characters' 0 safe
    profile_with "path = $(times 128 ä)" >"$room/input"
    ask_line 'a name of 256 bytes and 128 characters' 2 'fault: profile p line 3: BadPath NameTooLong'
    profile_with "path = $(times 63 a/)a" >"$room/input"
    ask_line '64 names' 0 safe
    profile_with "path = $(times 64 a/)a" >"$room/input"
    ask_line '65 names' 2 'fault: profile p line 3: BadPath TooDeep'
    mapfile -t lines < <(yes 'path = a' | head -n 65)
    profile_with "${lines[@]:1}" >"$room/input"
    ask_line '64 paths' 0 safe
    profile_with "${lines[@]}" >"$room/input"
    ask_line '65 paths' 2 'fault: profile p line 67: TooMany'
    mapfile -t lines < <(yes 'ignore = Name a' | head -n 65)
    profile_with "${lines[@]}" >"$room/input"
    ask_line '65 ignored patterns' 2 'fault: profile p line 67: TooMany'
}

# Two profiles of one path each, and below them the certificates of standard input.
with_certificates() {
    printf '%s\n' '%profile a' 'root = /srv/hub' 'root = /srv/s1' 'path = a'
    printf '%s\n' '%profile b' 'root = /srv/hub' 'root = /srv/s1' 'path = b' %certificates
    cat
}

# The certificate of one of their goals, by hand: sixteen texts, since all six goals have the same stages.
certificate() {
    local text
    echo "goal $1"
    for text in - 63 2e 2f 61 62 632f 2e2e 612f 622f 612f63 612f2e 622f63 622f2e 612f2e2e 622f2e2e; do
        echo "stage $text"
    done
}

# The certificates of all goals, each line from the first on. Line 1 is the header, and line 18 is the last text of the first goal.
certificates() {
    local other
    echo 'hubsync certificates 1'
    for other in '0 1' '1 0'; do
        certificate "clash $other root 0"
        certificate "clash $other root 1"
        certificate "clash $other archive"
    done
    echo end
}

# Asks about the certificates as `sed` changes them.
#
#     ask_changed PLACE WANTED-STATUS WANTED-LINE SED-WORD..
ask_changed() {
    certificates | sed "${@:4}" | with_certificates >"$room/input"
    ask_line "certificates: $1" "$2" "$3" verify
}

# Forged certificates. A text too many does no harm where its stage is one of the others.
ask_forged() {
    certificate 'clash 0 1 root 0' >"$room/first"
    ask_changed 'as they are' 0 verified ''
    ask_changed 'a text twice' 0 verified '18a stage 63'
    ask_changed 'a text that begins with a slash' 0 verified '18a stage 2f63'
    ask_changed 'a line end as a text' 0 verified '18a stage 0a'
    ask_changed 'upper case' 0 verified 's/^stage \(.*\)/stage \U\1/'
    ask_changed 'the first goal twice' 1 'refused: certificate 1 Stray' "1r $room/first"
    ask_changed 'a goal of one profile' 1 'refused: certificate 6 Stray' '$i goal clash 0 0 root 0\nstage -'
    ask_changed 'a goal that is not there' 1 'refused: certificate 6 Stray' '$i goal clash 0 9999 archive\nstage -'
    ask_changed 'the last goal is left out' 1 'refused: goal 5 Missing' '87,103d'
    ask_changed 'a leading zero' 2 'fault: certificates line 2: BadText' '2s/0 1/00 1/'
    ask_changed 'half a byte' 2 'fault: certificates line 19: BadText' '18a stage 6'
    ask_changed 'a text that is not UTF-8' 2 'fault: certificates line 19: BadText' '18a stage ff'
    ask_changed 'a line after the end' 2 'fault: certificates line 105: BadText' '$a goal clash 0 1 root 0'
    ask_changed 'a blank line after the end' 2 'fault: certificates line 105: BadText' '$a \\'
}

# A state with so many directories.
many_directories() {
    printf '%s\n' %state 'hubsync state 1' 'replica /srv/hub'
    seq "$1" | sed 's/^/dir d/'
    echo end
}

# A state with a file of so many bytes.
large_file() {
    printf '%s\n' %state 'hubsync state 1' 'replica /srv/hub'
    printf 'file %0*d a\nend\n' $((2 * $1)) 0
}

# A state with so many blobs.
many_blobs() {
    printf '%s\n' %state 'hubsync state 2'
    perl -MDigest::SHA=sha256_hex -e 'for (1 .. shift) { my $b = pack "N", $_; printf "blob %s %s\n", sha256_hex($b), unpack "H*", $b }' "$1"
    echo end
}

# A state with a blob of so many bytes.
large_blob() {
    printf '%s\n' %state 'hubsync state 2'
    printf 'blob %s %0*d\nend\n' "$(head -c "$1" /dev/zero | sha256sum | cut -d ' ' -f 1)" $((2 * $1)) 0
}

# A state has up to 100,000 entries and as many blobs, and a file or a blob up to 1 MiB.
ask_large_states() {
    many_directories 100000 >"$room/input"
    echo safe >"$room/wanted"
    ask_first '100,000 entries' 0 1
    [ "$(wc -l <"$room/whole")" = 100004 ] || complain '100,000 entries: some were lost'
    many_directories 100001 >"$room/input"
    ask_line '100,001 entries' 2 'fault: state line 100003: TooLarge'
    large_file 1048576 >"$room/input"
    echo safe >"$room/wanted"
    ask_first 'a file of 1 MiB' 0 1
    large_file 1048577 >"$room/input"
    ask_line 'a file of a byte more' 2 'fault: state line 3: TooLarge'
    printf '%s\n' safe 'hubsync state 2' end >"$room/wanted"
    many_blobs 100000 >"$room/input"
    ask '100,000 blobs' 0 '' hubsync
    large_blob 1048576 >"$room/input"
    ask 'a blob of 1 MiB' 0 '' hubsync
    many_blobs 100001 >"$room/input"
    ask_line '100,001 blobs' 2 'fault: state line 100002: TooLarge'
    large_blob 1048577 >"$room/input"
    ask_line 'a blob of a byte more' 2 'fault: state line 2: TooLarge'
}

# Cuts the file `bundle` at each byte, which is ASCII. The answer is one line, but for the last cut, which takes a line end.
ask_each_cut() {
    local bundle size cut status output
    bundle=$(<"$room/bundle")$'\n'
    size=${#bundle}
    for ((cut = 0; cut < size; cut++)); do
        printf '%s' "${bundle:0:cut}" >"$room/input"
        status=0
        output=$("$program" <"$room/input" 2>"$room/errors") || status=$?
        judge_remarks "$1, cut at $cut"
        asked=$((asked + 1))
        case $status-$output in
            [012]-*$'\n'*) [ "$cut" = $((size - 1)) ] || complain "$1, cut at $cut: more than a line: $output" ;;
            0-safe | 1-'refused: '* | 2-'fault: '*) : ;;
            *) complain "$1, cut at $cut: status $status, '$output'" ;;
        esac
    done
}

# A bundle with a state, in each version, is cut at each byte.
ask_cut() {
    local size digest
    digest=$(sha256sum </dev/null | cut -d ' ' -f 1)
    profile_with %state 'hubsync state 2' "blob $digest -" 'replica /srv/hub' "file $digest e" 'replica /srv/s1' end >"$room/bundle"
    ask_each_cut 'version 2'
    profile_with %state 'hubsync state 1' 'replica /srv/hub' 'file - e' 'replica /srv/s1' end >"$room/bundle"
    ask_each_cut 'version 1'
    size=$(wc -c <"$room/bundle")
    head -c $((size - 4)) "$room/bundle" >"$room/input"
    ask_line 'cut before the last line' 2 'fault: state line 4: Truncated'
    head -c $((size - 2)) "$room/bundle" >"$room/input"
    ask_line 'cut in the last line' 2 'fault: state line 5: Truncated'
    printf '%s\n' safe 'job p finished' 'to /srv/s1 e' >"$room/wanted"
    head -c $((size - 1)) "$room/bundle" >"$room/input"
    ask_first 'cut before the last line end' 0 3
    cp "$room/whole" "$room/cut"
    "$program" <"$room/bundle" 2>/dev/null | cmp -s - "$room/cut" || complain 'cut before the last line end: another answer'
}

# Inputs that are almost too long to be read, byte by byte, or longer, in whole blocks.
ask_blanks() {
    echo safe >"$room/wanted"
    printf '%999999s' '' >"$room/input"
    ask_bytes '999,999 blanks' 0 hubsync
    printf '%8000000s' '' >"$room/input"
    ask '8,000,000 blanks' 0 '' hubsync
    echo 'fault: bundle line 0: TurnsSpent' >"$room/wanted"
    printf '%1000000s' '' >"$room/input"
    ask_bytes '1,000,000 blanks' 2 hubsync
}
