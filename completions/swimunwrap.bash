# Completes the command and options of swimunwrap in bash.
_swimunwrap() {
    local word=${COMP_WORDS[COMP_CWORD]} before=${COMP_WORDS[COMP_CWORD - 1]} at
    local words='--key-file --accept-clear --help -h'
    [[ $before == = ]] && before=${COMP_WORDS[COMP_CWORD - 2]}
    [[ $word == = ]] && word=
    COMPREPLY=()
    if [[ $before == --key-file ]]; then
        compopt -o default
        return
    fi
    for ((at = 1; at < COMP_CWORD; at++)); do
        # A file of keys may have the name of the command.
        [[ ${COMP_WORDS[at]} == stream && ${COMP_WORDS[at - 1]} != --key-file && ${COMP_WORDS[at - 1]} != = ]] && break
    done
    if ((at == COMP_CWORD)); then
        words="$words --skip --version -V"
        [[ $word == -* ]] || words=stream
    elif [[ $word != -* ]]; then
        compopt -o default
        return
    fi
    mapfile -t COMPREPLY < <(compgen -W "$words" -- "$word")
}
complete -F _swimunwrap swimunwrap
