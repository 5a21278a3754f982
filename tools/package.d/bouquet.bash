# Completion for bash: the options of bouquet that weren't given yet. Their numbers are typed.
_bouquet() {
    local given=" ${COMP_WORDS[*]:1:COMP_CWORD-1} " option
    case $3 in
        --max-work | --demo | =) return ;;
    esac
    for option in --max-work --demo; do
        [[ $given == *" $option "* || $option != "$2"* ]] || COMPREPLY+=("$option")
    done
}
complete -F _bouquet bouquet
