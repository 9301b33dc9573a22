#!/bin/sh
# Prints the completion of rpy for a shell, by the commands of tools/commands.txt.
#
#     tools/completions.sh bash|zsh
unset CDPATH
cd "$(dirname "$0")" || exit 2
commands=$(grep -v '^#' commands.txt) || exit 2
case $1 in
bash)
    cat <<END
# Completion of rpy for bash.
_rpy_commands='$commands'
END
    cat <<'END'

# _rpy_files PATTERN WORD: the folders, and the files that fit the pattern.
_rpy_files() {
    mapfile -t COMPREPLY < <({ compgen -d -- "$2"; compgen -f -X "!$1" -- "$2"; } | sort -u)
    compopt -o filenames 2>/dev/null
}

_rpy() {
    local word=${COMP_WORDS[COMP_CWORD]} before=${COMP_WORDS[COMP_CWORD - 1]} line part at=0 i
    local -a kinds=() options=()
    COMPREPLY=()
    if [ "$COMP_CWORD" -eq 1 ]; then
        mapfile -t COMPREPLY < <(compgen -W "$(sed 's/:.*//' <<<"$_rpy_commands")" -- "$word")
        return
    fi
    line=$(grep "^${COMP_WORDS[1]}: " <<<"$_rpy_commands") || return
    for part in ${line#*:}; do
        case $part in --*) options+=("$part") ;; *) kinds+=("$part") ;; esac
    done
    # The value of an option: `--steps 5`, or `--steps=5`, which is three words here.
    [ "$before" != = ] || before=${COMP_WORDS[COMP_CWORD - 2]}
    [[ " ${options[*]} " != *" $before= "* ]] || return
    if [[ $word == -* ]]; then
        mapfile -t COMPREPLY < <(compgen -W "${options[*]%=}" -- "$word")
        return
    fi
    for ((i = 2; i < COMP_CWORD; i++)); do
        part=${COMP_WORDS[i]}
        if [[ " ${options[*]} " == *" $part= "* ]]; then
            [ "${COMP_WORDS[i + 1]}" != = ] || i=$((i + 1))
            i=$((i + 1))
        elif [[ $part != -* ]]; then
            at=$((at + 1))
        fi
    done
    if [ $at -ge ${#kinds[@]} ]; then
        at=$((${#kinds[@]} - 1))
        [[ ${kinds[at]} == *... ]] || return
    fi
    case ${kinds[at]%...} in
    DECL) _rpy_files '*.toml' "$word" ;;
    SCRIPT) _rpy_files '*.py' "$word" ;;
    FILE) _rpy_files '*' "$word" ;;
    PAIR)
        # Where `:` divides words, as it does by default, what stands before it is a word of its own.
        if [ "$word" = : ]; then
            _rpy_files '*.py' ''
        elif [ "$before" = : ]; then
            _rpy_files '*.py' "$word"
        elif [[ $word == *:* ]]; then
            _rpy_files '*.py' "${word#*:}"
            COMPREPLY=("${COMPREPLY[@]/#/${word%%:*}:}")
        fi
        ;;
    esac
}
complete -F _rpy rpy
END
    ;;
zsh)
    cat <<END
#compdef rpy
# Completion of rpy for zsh.
local commands='$commands'
END
    cat <<'END'
local line part repeats action
local -a specs
integer at=1

_rpy_pair() {
    if compset -P 1 '*:'; then _files -g '*.py'; else _message 'WHO:SCRIPT'; fi
}

if (( CURRENT == 2 )); then
    compadd -- ${${(f)commands}%%:*}
    return
fi
line=${(M)${(f)commands}:#$words[2]: *}
[[ -n $line ]] || return 1
for part in ${=line#*:}; do
    repeats=
    [[ $part != *... ]] || repeats=1
    case ${part%...} in
    --*=) specs+=("$part:value: "); continue ;;
    --*) specs+=("$part"); continue ;;
    DECL) action='_files -g "*.toml"' ;;
    SCRIPT) action='_files -g "*.py"' ;;
    FILE) action=_files ;;
    PAIR) action=_rpy_pair ;;
    *) action=' ' ;;
    esac
    specs+=("${${repeats:+*}:-$at}:${part%...}:$action")
    at+=1
done
shift words
(( CURRENT-- ))
_arguments $specs
END
    ;;
*) sed -n '2,/^unset/{/^#/p;}' completions.sh >&2; exit 2 ;;
esac
