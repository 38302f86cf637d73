# shellcheck shell=bash
# Completion of hubsync's words for bash: to be read by `source`, or put into ~/.local/share/bash-completion/completions/hubsync.
# The gate compares the words with those of the program (.ci/words).

_hubsync() {
    local word=${COMP_WORDS[COMP_CWORD]} before=${COMP_WORDS[COMP_CWORD - 1]} command='' each candidates=''
    local commands='check certify verify clashes mend rounds plan import reach run help'
    COMPREPLY=()
    # after a redirection come the names of files, which bash completes by itself
    [[ $before != [\<\>]* && $word != [\<\>]* ]] || return 0
    for each in "${COMP_WORDS[@]:1:COMP_CWORD-1}"; do
        if [[ " $commands " == *" $each "* ]]; then
            command=$each
            break
        fi
    done
    # so do they after an option that takes one
    case $before in --rules | --state | --certificates | --hosts) return 0 ;; esac
    case $command/$word in
        /-*) candidates='-h --help -V --version' ;;
        /*) candidates=$commands ;;
        help/-*) ;;
        help/*) candidates=$commands ;;
        reach/-*) candidates='--unison -h --help' ;;
        plan/-* | import/-*) candidates='--rules --strict --hosts --verbose -h --help' ;;
        clashes/-*) candidates='--rules --state --certificates --strict --unison --hosts --verbose --dot -h --help' ;;
        mend/-*) candidates='--rules --state --certificates --strict --unison --hosts --verbose --bundle -h --help' ;;
        check/-*) candidates='--rules --state --certificates --strict --unison --hosts --verbose -h --help' ;;
        rounds/-*) candidates='--rules --state --certificates --strict --unison --hosts --verbose --alone -h --help' ;;
        run/-*) candidates='--rules --state --certificates --strict --workers --rounds --in-order -h --help' ;;
        */-*) candidates='--rules --state --certificates --strict -h --help' ;;
        run/*) [[ $before != --workers ]] || candidates='1 2 3 4 5 6 7 8 9 10 11 12 13 14 15 16' ;;
    esac
    mapfile -t COMPREPLY < <(compgen -W "$candidates" -- "$word")
}

complete -o default -F _hubsync hubsync
