# Completion of halld for bash: by what its --help tells, so that it has just the options that the program has.
_halld() {
    local current=${COMP_WORDS[COMP_CWORD]} before=${COMP_WORDS[COMP_CWORD-1]} said words=
    if [ "$COMP_CWORD" -eq 1 ]; then
        words="$("$1" --help 2> /dev/null | sed -n 's/^  \([a-z][a-z]*\) .*/\1/p') --help --version"
    else
        said=$("$1" "${COMP_WORDS[1]}" --help 2> /dev/null)
        case $said in
            *" $before <FILE>"*) mapfile -t COMPREPLY < <(compgen -f -- "$current"); compopt -o filenames; return ;;
            *" $before <"*) return ;;
        esac
        words=$(printf '%s' "$said" | grep -o -- '--[a-z][a-z-]*')
    fi
    mapfile -t COMPREPLY < <(compgen -W "$words" -- "$current")
}
complete -F _halld halld
