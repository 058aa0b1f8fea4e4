# Completion of cec for bash.
_cec() {
    local now=${COMP_WORDS[COMP_CWORD]} before=${COMP_WORDS[COMP_CWORD - 1]} given=${COMP_WORDS[1]}
    COMPREPLY=()
    # A `=` is a word of its own here.
    [ "$now" = "=" ] && now=
    [ "$before" = "=" ] && before=${COMP_WORDS[COMP_CWORD - 2]}
    if [ "$COMP_CWORD" -eq 1 ]; then
        mapfile -t COMPREPLY < <(compgen -W "blif c verilog grc check run exec gen --help" -- "$now")
        return
    fi
    case $before in
    --via)
        local ways="blif c guard verilog"
        [ "$given" = run ] && ways="blif c guard verilog tri"
        mapfile -t COMPREPLY < <(compgen -W "$ways" -- "$now")
        return
        ;;
    --pick)
        mapfile -t COMPREPLY < <(compgen -W "first last" -- "$now")
        return
        ;;
    --main)
        mapfile -t COMPREPLY < <(compgen -W "$(_cec_modules)" -- "$now")
        return
        ;;
    --start | --branches | --run) return ;;
    esac
    case $now in
    -*)
        local options=
        case $given in
        blif) options="--main --pick --encode" ;;
        c) options="--main --pick --guard" ;;
        verilog) options="--main --pick" ;;
        grc | check) options="--main" ;;
        run) options="--via --main --pick --encode" ;;
        exec) options="--via" ;;
        gen) options="--start --branches --run" ;;
        esac
        mapfile -t COMPREPLY < <(compgen -W "$options" -- "$now")
        return
        ;;
    esac
    local file
    [ "$given" = gen ] && return
    while IFS= read -r file; do
        if [ -d "$file" ]; then
            COMPREPLY+=("$file/")
            continue
        fi
        case $given:$file in
        exec:*.blif | exec:*.c | exec:*.v | exec:*.trace | run:*.strl | run:*.trace) COMPREPLY+=("$file") ;;
        blif:*.strl | c:*.strl | verilog:*.strl | grc:*.strl | check:*.strl) COMPREPLY+=("$file") ;;
        esac
    done < <(compgen -f -- "$now")
    compopt -o nospace 2>/dev/null
    case ${COMPREPLY[0]-} in
    */) ;;
    *) compopt +o nospace 2>/dev/null ;;
    esac
}

# The modules of the files that the line names.
_cec_modules() {
    local word
    for word in "${COMP_WORDS[@]}"; do
        case $word in
        *.strl) [ -f "$word" ] && sed -n 's/^[[:space:]]*module[[:space:]]*\([A-Za-z][A-Za-z0-9_]*\).*/\1/p' "$word" ;;
        esac
    done
}

complete -F _cec cec
