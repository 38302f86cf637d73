# shellcheck shell=bash disable=SC2154
# Proves crates side by side, each as soon as those below it are proved. ./prove reads this file with `source`.
#
# A lane is the proof of one crate. `rt` keeps other runs away from a crate and all crates below it, so a library is proved in
# a folder of its own, its room, with links to what was built of those below it. What is made of it is then moved to its
# out/, where `rt` looks for it.
#
# The script that reads it has read crates.sh before, and has the functions `say_when` and `say_failed`.
#
# A keeper waits until ./prove has ended, however it ended. It then ends the lanes, keeps what they have made, and removes
# the rooms.

# Sets `uses` to the crates of this repository that each of `crates` uses itself.
list_uses() {
    local crate each
    declare -gA uses=()
    for crate in "${crates[@]}"; do
        for each in ${line_of[$crate]#*:}; do
            [ -z "${line_of[$each]-}" ] || uses[$crate]+=" $each"
        done
    done
}

# The processors to use: those that this process may run on, or fewer by the quota of its control group.
count_processors() {
    local found quota period
    found=$(nproc)
    if read -r quota period 2>/dev/null </sys/fs/cgroup/cpu.max && [ "$quota" != max ]; then
        quota=$((quota / period))
        found=$((quota < 1 ? 1 : quota < found ? quota : found))
    fi
    echo "$found"
}

# The megabytes of memory that are available, also under the limit of the control group.
count_memory() {
    local found limit held
    found=$(awk '/^MemAvailable/ { print int($2 / 1000) }' /proc/meminfo)
    if read -r limit 2>/dev/null </sys/fs/cgroup/memory.max && [ "$limit" != max ]; then
        held=$(awk '$1 == "anon" { print $2 }' /sys/fs/cgroup/memory.stat)
        limit=$(((limit - held) / 1000000))
        found=$((limit < found ? limit : found))
    fi
    echo "$found"
}

# Moves what was made of a library to its out/, in place of what is there. A room that is half made has nothing to keep.
keep_work() {
    local part made=$rooms/$1/crates/$1/out out=$top/crates/$1/out
    [ -e "$rooms/$1.made" ] || return 0
    for part in incremental rlib; do
        if [ -e "$made/$part" ] && { [ "$part" != rlib ] || [ -e "$made/rlib/stamp" ]; }; then
            rm -rf "${out:?}/$part"
            mv "$made/$part" "$out/"
        fi
    done
}

# Waits until ./prove has ended: then nothing holds the other end of the standard input any more.
keep_rooms() {
    local crate lane
    trap '' HUP INT TERM
    set +e
    shopt -s nullglob
    read -r
    while [ -e "$rooms" ]; do
        for lane in "$rooms"/*.lane; do
            kill -KILL -- "-$(cat "$lane")"
        done
        for lane in "$rooms"/*.lane; do
            crate=$(basename "$lane" .lane)
            keep_work "$crate"
            rm -rf "$top/crates/$crate/out"/rt-work-*
        done
        rm -rf "$rooms"
    done 2>/dev/null
}

# Makes the folder of the rooms, and starts their keeper. By `set -m` it is a process group of its own, and so is each lane.
open_rooms() {
    rooms=$(mktemp -d "$top/crates/hubsync/out/lanes.XXXXXX")
    set -m
    coproc keeper { keep_rooms; }
    keeper_pid=$keeper_PID
    keeper_waits_on=${keeper[1]}
    trap close_rooms EXIT
    trap 'exit 129' HUP
    trap 'exit 130' INT
    trap 'exit 143' TERM
}

# Lets the keeper do its work, and waits for it.
close_rooms() {
    trap '' HUP INT TERM
    exec {keeper_waits_on}>&-
    wait "$keeper_pid" 2>/dev/null || true
}

# Makes the room of a library.
make_room() {
    local room=$rooms/$1 each part
    mkdir "$room"
    for each in "${crates[@]}"; do
        if [ -e "$rooms/$each.proved" ] || [ "$each" = "$1" ]; then
            echo "${line_of[$each]}" >>"$room/crates.txt"
            mkdir -p "$room/crates/$each/out"
            for part in src specs proofs; do
                [ ! -d "$top/crates/$each/$part" ] || cp -r "$top/crates/$each/$part" "$room/crates/$each/"
            done
            [ ! -d "$top/crates/$each/out/rlib" ] || cp -rl "$top/crates/$each/out/rlib" "$room/crates/$each/out/"
        fi
    done
    [ ! -d "$top/crates/$1/out/incremental" ] || cp -rl "$top/crates/$1/out/incremental" "$room/crates/$1/out/"
    : >"$rooms/$1.made"
}

# Proves and builds a library in a room, or a program where it is. `rt run` also runs the program: here on an empty input.
run_lane() {
    local crate=$1 status=0
    shift
    echo "$BASHPID" >"$rooms/$crate.lane"
    mkdir "$rooms/$crate.tmp"
    export TMPDIR=$rooms/$crate.tmp
    if is_program "$crate"; then
        build_program "$crate" "$@" || status=$?
    else
        make_room "$crate"
        cd "$rooms/$crate/crates/$crate" || exit
        rt lib "$@" >"$top/crates/$crate/out/prove.log" 2>&1 || status=$?
        keep_work "$crate"
    fi
    [ "$status" != 0 ] || : >"$rooms/$crate.proved"
    rm -rf "${rooms:?}/$crate" "$rooms/$crate.tmp" "$rooms/$crate.lane"
}

# The program's own status doesn't count: `rt` leaves a stamp if it was built.
build_program() {
    local crate=$1 out=$top/crates/$1/out started
    shift
    started=$(date +%s.%N)
    cd "$top/crates/$crate" || return
    rt run "$@" >/dev/null 2>"$out/prove.log" || [ -e "$out/$crate.stamp" ] || return 1
    # A source that was changed in the meantime is newer than the program.
    touch -d "@$started" "$out/$crate"
}

is_program() {
    [ -e "$top/crates/$1/src/main.rt" ]
}

# Whether a library seems to have been proved before: what was built of it is newer than its sources and what was built of the
# crates that it uses. `rt` compares the checksums of all that when it builds a program.
is_kept() {
    local each stamp=$top/crates/$1/out/rlib/stamp
    if is_program "$1" || [ ! -e "$stamp" ]; then
        return 1
    fi
    for each in ${uses[$1]-}; do
        [ ! "$top/crates/$each/out/rlib/stamp" -nt "$stamp" ] || return 1
    done
    [ -z "$(find "$top/crates.txt" "$top/crates/$1"/{src,specs,proofs} -newer "$stamp" -print -quit 2>/dev/null)" ]
}

# Whether a crate waits for its turn, and all that it uses are proved.
is_ready() {
    local each
    [ -z "${state[$1]-}" ] || return 1
    for each in ${uses[$1]-}; do
        [ "${state[$each]-}" = proved ] || return 1
    done
}

# Begins a lane for each crate that is ready, as many as there is memory for. The processors are shared by the lanes that run
# or are ready now. A lane has up to four jobs, since more serve it little.
begin_lanes() {
    local crate share ready=()
    [ "$most_lanes" -gt 0 ] || return 0
    for crate in "${crates[@]}"; do
        if is_ready "$crate" && is_kept "$crate"; then
            state[$crate]=proved
            : >"$rooms/$crate.proved"
        elif is_ready "$crate"; then
            ready+=("$crate")
        fi
    done
    share=$((${#running[@]} + ${#ready[@]}))
    share=$((share > most_lanes ? most_lanes : share))
    for crate in "${ready[@]}"; do
        [ "${#running[@]}" -lt "$most_lanes" ] || return 0
        begin_lane "$crate" $(((processors + share - 1) / share))
    done
}

begin_lane() {
    local number=0 jobs=()
    until [ "${crates[number]}" = "$1" ]; do
        number=$((number + 1))
    done
    say_when "proving $1, crate $((number + 1)) of ${#crates[@]} ..."
    mkdir -p "$top/crates/$1/out"
    rm -f "$top/crates/$1/out/prove.log"
    [ -n "$is_short_of_memory" ] || jobs=(--jobs $(($2 > 4 ? 4 : $2)))
    run_lane "$1" "${jobs[@]}" </dev/null &
    running[$!]=$1
    state[$1]=running
}

# Waits until a lane has ended.
await_lane() {
    local lane crate
    wait -n || true
    for lane in "${!running[@]}"; do
        if ! kill -0 "$lane" 2>/dev/null; then
            crate=${running[$lane]}
            unset "running[$lane]"
            if [ -e "$rooms/$crate.proved" ]; then
                state[$crate]=proved
                say_when "proved $crate"
            else
                state[$crate]=failed
                most_lanes=0
                say_failed "$crate"
            fi
        fi
    done
}

# Proves the crates. After one that isn't proved no other one is begun. With little memory there is one lane, and `rt` itself
# says how many jobs it has.
prove_crates() {
    local processors memory most_lanes is_short_of_memory=''
    local -A running=() state=()
    processors=$(count_processors)
    memory=$(count_memory)
    most_lanes=$((memory / 2500))
    if [ "$memory" -lt 8000 ]; then
        is_short_of_memory=yes
        most_lanes=1
    fi
    [ "$processors" -gt 1 ] || most_lanes=1
    list_uses
    open_rooms
    begin_lanes
    while [ "${#running[@]}" -gt 0 ]; do
        await_lane
        begin_lanes
    done
    [ "${state[${crates[-1]}]-}" = proved ]
}
