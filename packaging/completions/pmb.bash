# Completion of pmb for bash.
_pmb() {
    local word=${COMP_WORDS[COMP_CWORD]} command=${COMP_WORDS[1]-}
    if [ "$COMP_CWORD" = 1 ]; then
        mapfile -t COMPREPLY < <(compgen -W "replay hear decode check number --help --version" -- "$word")
    elif [ "$command" = number ]; then
        mapfile -t COMPREPLY < <(compgen -W "--format= --word= --micro= --help" -- "$word")
        compopt -o nospace
    elif [ "$command" = decode ]; then
        mapfile -t COMPREPLY < <(compgen -W "--values --vout= --readings= --all --pages --gap= --explain --long --times --json --part= --mux= --help" -- "$word")
        [[ ${COMPREPLY[0]-} != *= ]] || compopt -o nospace
    elif [ "$command" = check ]; then
        mapfile -t COMPREPLY < <(compgen -W "--lacks= --help" -- "$word")
        [[ ${COMPREPLY[0]-} != *= ]] || compopt -o nospace
    else
        mapfile -t COMPREPLY < <(compgen -W "--help" -- "$word")
    fi
}
complete -F _pmb pmb
