# Completion for Bash: the commands of ./class and their options, as --help prints them, daemons, students' names and files.
# Read by: source operate/class.bash
_class_words() {
    local program="$1" current="$2" found
    case "${COMP_WORDS[COMP_CWORD - 1]}:$current" in
        --daemon:* | --close:*) found="central synchronous random: schedule adversary when-idle: every: by-hand" ;;
        *:-*) found="$("$program" "${COMP_WORDS[1]}" --help 2> /dev/null | grep -o -E -- '--[a-z][a-z-]*' | sort -u)" ;;
        *)
            case "$COMP_CWORD,${COMP_WORDS[1]}" in
                1,*) found="$("$program" --help 2> /dev/null | sed -n 's/^    \([a-z][a-z-]*\) .*/\1/p')" ;;
                3,history | 3,key)
                    found="${COMP_WORDS[2]}"
                    [ ! -d "$found" ] || found="$found/lab.toml"
                    found="$(sed -n '/^\[\[student\]\]/,/^name/s/^name = "\([a-z0-9_-]*\)"$/\1/p' -- "$found" 2> /dev/null)"
                    ;;
                *) return 0 ;;
            esac
            ;;
    esac
    mapfile -t COMPREPLY < <(compgen -W "$found" -- "$current")
}
complete -o default -F _class_words class ./class
