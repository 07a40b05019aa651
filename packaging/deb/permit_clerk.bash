# Completions of bash for permit_clerk: its commands, the option of one, and the names of files behind <.
_permit_clerk() {
    local word=${COMP_WORDS[COMP_CWORD]}
    COMPREPLY=()
    case $COMP_CWORD-${COMP_WORDS[1]}-$word in
        1-*) COMPREPLY=($(compgen -W 'certify carry' -- "$word")) ;;
        2-carry--*) COMPREPLY=($(compgen -W '--in-force' -- "$word")) ;;
    esac
}
# Where the function offers nothing, names of files are.
complete -o default -F _permit_clerk permit_clerk
