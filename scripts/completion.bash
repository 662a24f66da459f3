# Completion for bash: the commands of lampthistle, a command's options, and files. Commands and options come from what the program says in
# its help, so that they are those of the program that is installed.

# The words of a text that look as given, each once.
_lampthistle_words() { # PATTERN
    grep -o -E -e "$1" | sort -u
}

_lampthistle() {
    local program=$1 word=$2 command=${COMP_WORDS[1]-} words
    COMPREPLY=()
    if [ "$COMP_CWORD" -eq 1 ] || [ "$COMP_CWORD $command" = "2 help" ]; then
        words=$("$program" --help 2>/dev/null | sed -n 's/^  lampthistle //p' | _lampthistle_words '^(--)?[a-z]+')
    elif [[ $word == -* ]]; then
        words=$("$program" "$command" --help 2>/dev/null | _lampthistle_words '--[a-z]+')
        words="$words --help"
    else
        return
    fi
    mapfile -t COMPREPLY < <(compgen -W "$words" -- "$word")
}

complete -o default -F _lampthistle lampthistle
