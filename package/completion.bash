# Completion for stickerpeck: a program's name, then files.
_stickerpeck() {
    if [ "$COMP_CWORD" = 1 ]; then
        mapfile -t COMPREPLY < <(compgen -W "@NAMES@ --help --version" -- "${COMP_WORDS[1]}")
    else
        mapfile -t COMPREPLY < <(compgen -f -W "--help --replace --text --words" -- "${COMP_WORDS[COMP_CWORD]}")
    fi
}
complete -o filenames -F _stickerpeck stickerpeck
