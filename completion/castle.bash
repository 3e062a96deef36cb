# Completion for bash of castle, castle-shell, castle-hub and castle-replicate: `. completion/castle.bash`, or where ./install puts it.

_castle_shell() {
    local word=${COMP_WORDS[COMP_CWORD]} place=0 each
    for each in "${COMP_WORDS[@]:1:COMP_CWORD-1}"; do
        [[ $each == -* ]] || place=$((place + 1))
    done
    if [ "$place" -gt 0 ] && [[ ${COMP_WORDS[COMP_CWORD - 1]} == -c ]]; then
        return
    fi
    case $place:$word in
        [01]:-*) COMPREPLY=($(compgen -W "--json --keep-going -c --help --version" -- "$word")) ;;
        1:*) COMPREPLY=($(compgen -W "put get exists delete scan use clone drop switch snapshot release merge names info tree diff stat levels check report dump load export import backup salvage help" -- "$word")) ;;
        *:-*) COMPREPLY=($(compgen -W "--limit --stat -p --svg --long --all --csv --json-lines --frames --overwrite --doubtful --ours --theirs --tree --yes" -- "$word")) ;;
        *)
            compopt -o filenames 2>/dev/null
            local IFS=$'\n'
            COMPREPLY=($(compgen -f -- "$word"))
            ;;
    esac
}

_castle() {
    local word=${COMP_WORDS[COMP_CWORD]} at=$COMP_CWORD
    COMPREPLY=()
    if [ "${COMP_WORDS[0]##*/}" = castle-hub ]; then
        if [[ $word == -* ]]; then
            COMPREPLY=($(compgen -W "--mode --clients --help --version" -- "$word"))
        else
            compopt -o filenames 2>/dev/null
            local IFS=$'\n'
            COMPREPLY=($(compgen -f -- "$word"))
        fi
        return
    fi
    if [ "${COMP_WORDS[0]##*/}" = castle-replicate ]; then
        if [ "$at" -eq 1 ]; then
            COMPREPLY=($(compgen -W "record feed backup read status commands show --help --version" -- "$word"))
        elif [ "${COMP_WORDS[1]}" = show ]; then
            COMPREPLY=($(compgen -W "changes receipts" -- "$word"))
        elif [[ $word == -* ]]; then
            COMPREPLY=($(compgen -W "--pass --until --stay --retries --command --overwrite --help" -- "$word"))
        else
            compopt -o filenames 2>/dev/null
            local IFS=$'\n'
            COMPREPLY=($(compgen -f -- "$word"))
        fi
        return
    fi
    if [ "${COMP_WORDS[0]##*/}" = castle-shell ]; then
        _castle_shell
        return
    elif [ "${COMP_WORDS[1]}" = --overwrite ] && [ "$at" -gt 1 ]; then
        at=$((at - 1))
        if [ "$at" -eq 1 ]; then
            COMPREPLY=($(compgen -W "format workload" -- "$word"))
            return
        fi
    elif [ "$at" -eq 1 ]; then
        COMPREPLY=($(compgen -W "format serve levels check workload lead follow export --overwrite --build --help --version" -- "$word"))
        return
    fi
    if [ "$at" -eq 2 ]; then
        if [[ $word == -* ]]; then
            COMPREPLY=($(compgen -W "--help --version" -- "$word"))
        else
            compopt -o filenames 2>/dev/null
            local IFS=$'\n'
            COMPREPLY=($(compgen -f -- "$word"))
        fi
    fi
}
complete -F _castle castle castle-shell castle-hub castle-replicate
