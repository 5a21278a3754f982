# Completion for bash: files, the options of bouquet-table, and what some of these take. Names of columns, words and signs are
# typed.
_bouquet_table() {
    local options='--into --replace --indexes --columns --texts --names --skip --comment --separator --encoding --decimal
        --thousands --round --null --help'
    case $3 in
        --into)
            compopt -o filenames
            mapfile -t COMPREPLY < <(compgen -d -- "$2")
            ;;
        --separator) mapfile -t COMPREPLY < <(compgen -W 'tab space' -- "$2") ;;
        --encoding) mapfile -t COMPREPLY < <(compgen -W 'utf-8 utf-16-le utf-16-be latin-1 cp1252 cp850 cp437' -- "$2") ;;
        --decimal) mapfile -t COMPREPLY < <(compgen -W '. ,' -- "$2") ;;
        --columns | --texts | --names | --skip | --comment | --thousands | --round | --null | =) ;;
        *)
            if [[ $2 == -* ]]; then
                mapfile -t COMPREPLY < <(compgen -W "$options" -- "$2")
            else
                compopt -o filenames
                mapfile -t COMPREPLY < <(compgen -f -- "$2")
            fi
            ;;
    esac
}
complete -F _bouquet_table bouquet-table
