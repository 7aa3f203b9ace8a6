# Completion for bash of ./cell, ./hunt and the programs of tools/, however they are called. Load it by `. share/completions/cell.bash`.
# tools/dev/completions --write made this file: edit tools/celltools/usage.

# Sets the options of a program, those that take values with the kinds of these, and the forms. In a form `=WORD` is typed as it is; the others are kinds of words.
_cell_table() {
    case $1 in
@TABLE@
    esac
}

# Puts the words before the current one that are no options into `typed`, and the kinds of the values that the last option still takes into `awaited`.
_cell_read() {
    local place word ended=
    for ((place = 1; place < COMP_CWORD; place++)); do
        word=${COMP_WORDS[place]}
        if [[ $word == = ]]; then # bash cuts --option=value at it
            continue
        elif ((${#awaited[@]})); then
            awaited=("${awaited[@]:1}")
        elif [[ -z $ended && $word == -- ]]; then
            ended=yes
        elif [[ -z $ended && $word == -?* ]]; then
            read -ra awaited <<<"${values[$word]-}"
        else
            typed+=("$word")
        fi
    done
    [[ -z $ended ]] || options=
}

# Prints the kind of the next word in each form that begins with the words that were typed.
_cell_kinds() {
    local form words place last
    for form in "${forms[@]}"; do
        read -ra words <<<"$form"
        last=${words[${#words[@]} - 1]}
        for ((place = ${#words[@]}; place <= ${#typed[@]}; place++)); do
            [[ $last == *.. ]] && words+=("$last")
        done
        for ((place = 0; place < ${#typed[@]}; place++)); do
            [[ ${words[place]-=} != =* || ${words[place]-=} == "=${typed[place]}" ]] || continue 2
        done
        printf '%s\n' "${words[${#typed[@]}]-}"
    done
}

# Offers the files whose names match, and folders; all files if none matches.
_cell_files() {
    local found
    mapfile -t found < <({ compgen -f -X "!$1" -- "$current"; compgen -d -- "$current"; } | sort -u)
    ((${#found[@]})) || mapfile -t found < <(compgen -f -- "$current")
    COMPREPLY+=("${found[@]}")
    compopt -o filenames 2>/dev/null
}

# Offers words of a kind.
_cell_offer() {
    case $1 in
    =*) mapfile -t -O ${#COMPREPLY[@]} COMPREPLY < <(compgen -W "${1#=}" -- "$current") ;;
    machine*) _cell_files '*.cell' ;;
    source*) _cell_files '*.[sS]' ;;
    folder*) _cell_files '' ;;
    file*) _cell_files '*' ;;
    esac
}

_cell() {
    local current=${COMP_WORDS[COMP_CWORD]} options='' first='' kind
    local -A values=()
    local -a forms=() typed=() awaited=()
    COMPREPLY=()
    [[ $current != = ]] || current=
    _cell_table "${1##*/}"
    _cell_read
    if ((${#awaited[@]})); then
        _cell_offer "${awaited[0]}"
    elif [[ $current == -* && -n $options && ( -z $first || $COMP_CWORD -eq 1 ) ]]; then
        mapfile -t COMPREPLY < <(compgen -W "$options" -- "$current")
    else
        while read -r kind; do
            _cell_offer "$kind"
        done < <(_cell_kinds | sort -u)
    fi
}

complete -F _cell @NAMES@
