# Completion for Bash: the commands of ./mml, as --help prints them, a lab as the first argument, and files.
# Read by: source operate/mml.bash
_mml_words() {
    local program="$1" current="$2"
    case "$COMP_CWORD" in
        1) mapfile -t COMPREPLY < <(compgen -W "$("$program" --help 2> /dev/null | sed -n 's/^  \.\/mml \([a-z-]*\) .*/\1/p') --help" -- "$current") ;;
        2) mapfile -t COMPREPLY < <(compgen -f -X '!*.toml' -- "$current"; compgen -d -- "$current") ;;
    esac
}
complete -o default -o filenames -F _mml_words mml ./mml
