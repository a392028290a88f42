# Completion for bash of transyt's words, and of the script ./transyt in its folder, with the topics of its help.
# ./transyt install puts it under share/bash-completion/completions; in the repository: . share/transyt.bash

# _transyt_topics FOLDER: what ./transyt help answers
_transyt_topics() {
    sed -n -e 's/^| `\([A-Z][A-Z]*\)[ `].*/\1/p' -e 's/^| \([12][0-9]\) | .*/\1/p' "$1/docs/FORMATS.md" | sort -u
}

_transyt() {
    local words='run make brief counts equisat cycles starts scan audit version'
    local typed=${COMP_WORDS[COMP_CWORD]} folder=${COMP_WORDS[0]%/*} first=1
    COMPREPLY=()
    # the script takes more words than the program
    if [ -f "$folder/build.py" ] && [ -f "$folder/docs/FORMATS.md" ]; then
        case ${COMP_WORDS[1]}:$COMP_CWORD in
            *:1) words="$words try help install --help --version" ;;
            try:*) first=2 ;;
            help:2) mapfile -t COMPREPLY < <(compgen -W "$words try help install $(_transyt_topics "$folder")" -- "$typed") ;;
            install:2) mapfile -t COMPREPLY < <(compgen -d -- "$typed") ;;
        esac
    fi
    if [ "$COMP_CWORD" = "$first" ]; then
        mapfile -t COMPREPLY < <(compgen -W "$words" -- "$typed")
        return
    fi
    # this number is that of the workers
    case ${COMP_WORDS[first]}:$((COMP_CWORD - first)) in
        run:1 | cycles:1 | scan:1 | starts:1 | brief:3) mapfile -t COMPREPLY < <(compgen -W '1 2 3 4 5 6 7 8' -- "$typed") ;;
    esac
}

complete -F _transyt transyt
