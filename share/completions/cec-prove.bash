# Completion of cec-prove for bash.
_cec_prove() {
    local now=${COMP_WORDS[COMP_CWORD]} file at place=0
    COMPREPLY=()
    if [ "$COMP_CWORD" -eq 1 ]; then
        mapfile -t COMPREPLY < <(compgen -W "never always all cover same --help --version" -- "$now")
        return
    fi
    [[ ${COMP_WORDS[1]} != --help && ${COMP_WORDS[1]} != --version ]] || return
    local options="--assume --main --effort --text" first=3 last=3
    case ${COMP_WORDS[1]} in
    all) first=2 last=2 ;;
    cover) options="--assume --main --effort" first=2 last=2 ;;
    same) options="--main --effort --text" first=2 ;;
    esac
    # Each option but --text has a value.
    for ((at = last + 1; at < COMP_CWORD; at++)); do
        [ "$place${COMP_WORDS[at]}" = 0--text ] || place=$((1 - place))
    done
    if [ "$COMP_CWORD" -gt "$last" ] && [ "$place" -eq 0 ]; then
        mapfile -t COMPREPLY < <(compgen -W "$options" -- "$now")
        return
    fi
    [ "$COMP_CWORD" -ge "$first" ] && [ "$COMP_CWORD" -le "$last" ] || return
    while IFS= read -r file; do
        if [ -d "$file" ]; then
            COMPREPLY+=("$file/")
        elif [ "${file%.strl}" != "$file" ] || [ "${file%.blif}" != "$file" ]; then
            COMPREPLY+=("$file")
        fi
    done < <(compgen -f -- "$now")
    case ${COMPREPLY[0]-} in
    */) compopt -o nospace 2>/dev/null ;;
    esac
}

complete -F _cec_prove cec-prove
