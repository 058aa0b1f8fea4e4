# Completion of cec-opt for bash.
_cec_opt() {
    local now=${COMP_WORDS[COMP_CWORD]} file
    COMPREPLY=()
    if [ "$COMP_CWORD" -eq 1 ]; then
        mapfile -t COMPREPLY < <(compgen -W "blif c verilog check --help --version" -- "$now")
        return
    fi
    [[ ${COMP_WORDS[1]} != --help && ${COMP_WORDS[1]} != --version ]] || return
    # The words without relations of inputs, which come right after the command. A source takes none.
    local words=("${COMP_WORDS[@]}") place=$COMP_CWORD origin="--source --main" relations=" --never --implies"
    while [[ $place -gt 2 && "$relations " == *" ${words[2]} "* ]]; do
        [ "$place" -gt 3 ] || return
        words=("${words[@]:0:2}" "${words[@]:4}")
        place=$((place - 2))
        origin=
    done
    # The place of the file, or of the first option about a source. After `c --embed NAME` and words for the layout come the
    # same words as after `c`.
    local ending=.blif first=2 options=$origin layout word
    if [ "${words[1]}" = c ]; then
        if [ "$place" -eq 2 ]; then
            options="--embed $origin"
        elif [ "${words[2]}" = --embed ]; then
            first=4
            layout=" --packed --header --declarations --definitions"
            while [ "$place" -gt "$first" ] && [[ "$layout " == *" ${words[first]} "* ]]; do
                if [ "${words[first]}" = --packed ]; then
                    layout=${layout/ --packed/}
                elif [[ $layout == *--packed* ]]; then
                    layout=" --packed"
                else
                    layout=
                fi
                first=$((first + 1))
            done
        fi
    fi
    if [ "${words[1]}" = verilog ] && [ "$place" -eq 2 ]; then
        options="--reset $origin"
    fi
    if [ "${words[place - 1]}" = --source ]; then
        ending=.strl
    elif [ "${words[1]}" = verilog ] && [ "$place" -gt 2 ] && [ "${words[2]}" = --reset ]; then
        # Words in any order, each once; one that waits for a name has nothing to offer.
        case ${words[place - 1]} in
        --reset | --module | --main) return ;;
        esac
        if [[ $now == -* ]]; then
            options=
            for word in --async --active-low --initial --prefix --module ${origin:+$origin --encode}; do
                [[ " ${words[*]:3:place-3} " == *" $word "* ]] || options="$options $word"
            done
            mapfile -t COMPREPLY < <(compgen -W "$options" -- "$now")
            return
        fi
    elif [ "$place" -eq $((first + 2)) ] && [[ ${words[first]} == --* ]] || [[ $place -eq $first && $now == -* ]]; then
        [ "$place" -ne "$first" ] || options="$options$layout"
        [ "$place" -ne 2 ] || options="$options$relations"
        mapfile -t COMPREPLY < <(compgen -W "$options" -- "$now")
        return
    elif [ "$place" -ne "$first" ]; then
        return
    fi
    while IFS= read -r file; do
        if [ -d "$file" ]; then
            COMPREPLY+=("$file/")
        elif [ "${file%"$ending"}" != "$file" ]; then
            COMPREPLY+=("$file")
        fi
    done < <(compgen -f -- "$now")
    case ${COMPREPLY[0]-} in
    */) compopt -o nospace 2>/dev/null ;;
    esac
}

complete -F _cec_opt cec-opt
