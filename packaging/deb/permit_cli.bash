# Completions of bash for permit_cli: its commands, its options, and the names of files behind <.
_permit_cli() {
    local word=${COMP_WORDS[COMP_CWORD]} before=${COMP_WORDS[COMP_CWORD - 1]} command='' other
    COMPREPLY=()
    for other in "${COMP_WORDS[@]:1:COMP_CWORD-1}"; do
        case $other in
            check | day | make | trial | audit | design | convoy | reroute) command=$other ;;
        esac
    done
    case $before in
        --seed | --size | --trucks | --gap | *'<' | *'>') return ;;
    esac
    case $word in
        '<'* | '>'*) return ;;
        -*)
            COMPREPLY=($(compgen -W '--seed --size --trucks --gap' -- "$word"))
            return
            ;;
    esac
    case $command in
        '') COMPREPLY=($(compgen -W 'check day make trial audit design convoy reroute' -- "$word")) ;;
        make | trial) COMPREPLY=($(compgen -W '--seed --size' -- "$word")) ;;
        convoy) COMPREPLY=($(compgen -W '--trucks --gap' -- "$word")) ;;
    esac
}
# Where the function offers nothing, names of files are.
complete -o default -F _permit_cli permit_cli
