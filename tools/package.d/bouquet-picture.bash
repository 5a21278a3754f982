# Completion for bash: an option of bouquet-picture. The number of --threshold is typed.
_bouquet_picture() {
    case $3 in
        --threshold | =) return ;;
    esac
    mapfile -t COMPREPLY < <(compgen -W '--threshold --help' -- "$2")
}
complete -F _bouquet_picture bouquet-picture
