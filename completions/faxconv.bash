# Completion of faxconv for bash.
_faxconv()
{
    local word=${COMP_WORDS[COMP_CWORD]}
    COMPREPLY=()
    case ${COMP_WORDS[COMP_CWORD-1]} in
        -f|--format) COMPREPLY=($(compgen -W 'pbm png tiff pdf' -- "$word")) ;;
        -e|--encode) COMPREPLY=($(compgen -W 'g4 1d 2d shortest' -- "$word")) ;;
        -m|--mode) COMPREPLY=($(compgen -W 'g4 1d 2d' -- "$word")) ;;
        --rotate) COMPREPLY=($(compgen -W '90 180 270' -- "$word")) ;;
        -p|--pages|--resolution|--rows-per-strip|-w|--width|-r|--rows|-H|--height|-F|--flags) ;;
        *)
            if [[ $word == -* ]]; then
                COMPREPLY=($(compgen -W '--output --format --pages --encode --copy --overwrite --no-overwrite --resolution --rotate --rows-per-strip --check --standard --info --guess --show-damage --json --quiet --mode --width --rows --height --flags --help --version' -- "$word"))
            else
                compopt -o filenames
                mapfile -t COMPREPLY < <(compgen -f -- "$word")
            fi ;;
    esac
}
complete -F _faxconv faxconv
