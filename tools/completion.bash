# Completion of bash for nosleep: its forms and options, certificates and lists as any file or *.toml, DEX files as *.dex, and folders.
# Source it, or put it as `nosleep` into /usr/share/bash-completion/completions.

_nosleep() {
    local word=${COMP_WORDS[COMP_CWORD]} form=${COMP_WORDS[1]} files= at=2 name
    COMPREPLY=()
    if [ "$COMP_CWORD" -eq 1 ]; then
        mapfile -t COMPREPLY < <(compgen -W "receiver verify check" -- "$word")
        return
    fi
    # names are counted from the first word that is no option
    while [ "$at" -lt "$COMP_CWORD" ] && [[ ${COMP_WORDS[at]} == --* ]]; do
        at=$((at + 1))
    done
    name=$((COMP_CWORD - at))
    if [ "$name" -eq 0 ] && [[ $word == -* ]]; then
        mapfile -t COMPREPLY < <(compgen -W "--json --count" -- "$word")
        return
    fi
    case $name:$form in
        0:verify | 1:check) files='!*.toml' ;;
        0:check) files='!*' ;;
        0:receiver | *:verify | *:check) files='!*.dex' ;;
    esac
    if [ "$files" = '!*' ]; then
        mapfile -t COMPREPLY < <(compgen -f -- "$word")
    elif [ -n "$files" ]; then
        mapfile -t COMPREPLY < <(compgen -d -- "$word"; compgen -f -X "$files" -- "$word")
    fi
}

complete -o filenames -F _nosleep nosleep
