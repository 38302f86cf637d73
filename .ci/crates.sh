# shellcheck shell=bash
# Which crates a crate stands on, whether a program was built from the sources as they are now, and the stamps of a program
# that is shipped and of edits that were tried. Scripts read this file with `source`, after they have set `top`, the top of the repository.
: "${top?}"

# Sets `crates` to a crate and the crates of this repository that it uses, itself or through others, in the order of
# crates.txt, which is lowest first. `line_of` gets their lines in that file.
read_crates() {
    local at name each lines names passed again=yes
    local -A wanted=(["$1"]=yes)
    declare -gA line_of=()
    mapfile -t lines <"$top/crates.txt"
    lines=("${lines[@]%%#*}")
    names=("${lines[@]%%[ :]*}")
    # once more only if a crate stands above one that it uses
    while [ -n "$again" ]; do
        again='' crates=() passed=()
        for ((at = ${#names[@]} - 1; at >= 0; at--)); do
            name=${names[at]:-none}
            if [ -n "${wanted[$name]-}" ]; then
                crates=("$name" "${crates[@]}")
                line_of[$name]=${lines[at]}
                for each in ${lines[at]#*:}; do
                    wanted[$each]=yes
                done
            else
                passed+=("$name")
            fi
        done
        for name in "${passed[@]}"; do
            again+=${wanted[$name]-}
        done
    done
}

# Whether a program is newer than the list of crates and the sources of these crates. The folders count too, since their
# times tell of a file that is gone.
is_newer_than_sources() {
    local crate places=("$top/crates.txt")
    [ -x "$1" ] || return 1
    for crate in "${crates[@]}"; do
        places+=("$top/crates/$crate/src")
    done
    [ -z "$(find "${places[@]}" -newer "$1" -print -quit)" ]
}

# Prints the checksum of what a program's bytes depend on: its crates' lines in crates.txt, and the names and contents of
# their source files. Nothing is compiled of specs/ and proofs/. `b2sum` takes two thirds of the time of `sha256sum`. To be called in a
# subshell, since it changes the folder.
sum_of_sources() {
    LC_ALL=C
    shopt -s globstar
    cd -- "${top:-/}" || exit
    text='' files=()
    for crate in "${crates[@]}"; do
        text+=${line_of[$crate]}$'\n'
        files+=("crates/$crate/src"/**/*.rt)
    done
    b2sum --length=256 - "${files[@]}" <<<"$text" | b2sum --length=256
}

# Prints the checksum of the edits of a crate in tests/edits/, and of what they turn: the lines of the crate's sources and definitions,
# in any order. Imports, comments and hints to the prover don't count.
sum_of_edits() (
    LC_ALL=C
    shopt -s globstar nullglob
    cd -- "${top:-/}" || exit
    cat "crates/$1/src"/**/*.rt "crates/$1/specs"/**/*.antt |
        grep -vE '^ *((pub(\(crate\))? )?(ghost )?(use|mod) |--|//|#\[tactic|$)' | sort | b2sum --length=256 - "tests/edits/$1"/*.edit |
        b2sum --length=256 | cut -d ' ' -f 1
)

# Whether the program in dist/ was built from the sources as they are now: its stamp says so.
is_stamp_of_sources() {
    local stamp sum
    { read -r stamp <"$top/dist/stamp"; } 2>/dev/null || return 1
    read -r sum _ < <(sum_of_sources)
    [ "$stamp" = "sources $sum" ]
}
