# Completes the commands and options of swimwatch in bash.
_swimwatch() {
    local word=${COMP_WORDS[COMP_CWORD]} before=${COMP_WORDS[COMP_CWORD - 1]} options
    [[ $before == = ]] && before=${COMP_WORDS[COMP_CWORD - 2]}
    [[ $word == = ]] && word=
    COMPREPLY=()
    if ((COMP_CWORD == 1)); then
        options='members timeline claims talkers dump chart probes health why spread distances report pull diff'
        [[ $word == -* ]] && options='--help -h --version -V'
        mapfile -t COMPREPLY < <(compgen -W "$options" -- "$word")
        return
    fi
    case ${COMP_WORDS[1]} in
        members) options='--wait --suspicion-mult --at --from --to --for --start --port --label --merge --json' ;;
        timeline) options='--wait --member --from --to --for --start --port --label --merge --events --json' ;;
        claims) options='--wait --member --from --to --for --port --label --json' ;;
        talkers) options='--wait --from --to --for --port --label --json' ;;
        dump) options='--wait --for --port --label' ;;
        chart) options='--wait --member --from --to --for --start --port --label' ;;
        probes) options='--prober --target --from --to --for --port --label --probe-timeout --probe-interval --json' ;;
        health) options='--member --from --to --for --port --label --probe-timeout --probe-interval --json' ;;
        why)
            options='--member --agent-log --from --to --for --port --label --probe-timeout --probe-interval --json'
            ;;
        spread) options='--member --from --to --for --port --label --json' ;;
        distances) options='--target --from --to --for --port --label --json' ;;
        report)
            options='--wait --suspicion-mult --member --from --to --for --start --port --label --probe-timeout
                --probe-interval'
            ;;
        pull) options='--every --count --metrics --forget --events --timeout --label --json --dump' ;;
        diff) options='--at --wait --timeout --label --json' ;;
        *) return ;;
    esac
    case $before in
        --key-file | --start | --agent-log | --metrics) compopt -o default ;;
        --wait | --suspicion-mult | --at | --from | --to | --for | --port | --label | --member | --prober | --target | \
            --probe-timeout | --probe-interval | --every | --count | --forget | --timeout) ;;
        *)
            if [[ $word == -* ]]; then
                mapfile -t COMPREPLY < <(compgen -W "--key-file --accept-clear $options --help -h" -- "$word")
            elif [[ ${COMP_WORDS[1]} == pull ]]; then
                mapfile -t COMPREPLY < <(compgen -A hostname -- "$word")
            else
                compopt -o default
            fi
            ;;
    esac
}
complete -F _swimwatch swimwatch
