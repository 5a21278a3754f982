# Completion for bash: a folder, or an option of bouquet-ask. The number of --max-work is typed.
_bouquet_ask() {
    case $3 in
        --max-work | =) return ;;
    esac
    if [[ $2 == -* ]]; then
        mapfile -t COMPREPLY < <(compgen -W '--max-work --help' -- "$2")
    else
        compopt -o filenames
        mapfile -t COMPREPLY < <(compgen -d -- "$2")
    fi
}
complete -F _bouquet_ask bouquet-ask
