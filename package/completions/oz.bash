# Completion of oz for bash.
_oz() {
    local word=${COMP_WORDS[COMP_CWORD]} before=${COMP_WORDS[COMP_CWORD - 1]}
    COMPREPLY=()
    case $before in
    --sites | --workers | --steps | --messages | --seed | gen) return ;;
    help)
        COMPREPLY=($(compgen -W 'words ends' -- "$word"))
        return
        ;;
    esac
    case $word in
    -*) COMPREPLY=($(compgen -W '--sites --workers --seed --steps --messages --hints --help --version' -- "$word")) ;;
    *)
        [ "$COMP_CWORD" -ne 1 ] || COMPREPLY=($(compgen -W 'run central save check gen races again picture help version' -- "$word"))
        compopt -o filenames 2>/dev/null
        local file
        while IFS= read -r file; do
            COMPREPLY+=("$file")
        done < <(compgen -f -X '!*.@(oz|run)' -- "$word"; compgen -d -- "$word")
        ;;
    esac
}
shopt -s extglob
complete -F _oz oz
