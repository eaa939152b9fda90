# Completes the commands and options of swimtab in bash.
_swimtab() {
    local word=${COMP_WORDS[COMP_CWORD]} words='list merge relate loop run'
    COMPREPLY=()
    if ((COMP_CWORD == 1)); then
        [[ $word == -* ]] && words='--help -h --version -V'
        mapfile -t COMPREPLY < <(compgen -W "$words" -- "$word")
    elif [[ $word == -* ]]; then
        case ${COMP_WORDS[1]} in
            list | merge | relate | loop | run) mapfile -t COMPREPLY < <(compgen -W '--help -h' -- "$word") ;;
        esac
    else
        case ${COMP_WORDS[1]} in
            list | merge | relate | loop) compopt -o default ;;
        esac
    fi
}
complete -F _swimtab swimtab
