# Completion for bash of ./cell, ./hunt and the programs of tools/, however they are called. Load it by `. share/completions/cell.bash`.
# tools/dev/completions --write made this file: edit tools/celltools/usage.

# Sets the options of a program, those that take values with the kinds of these, and the forms. In a form `=WORD` is typed as it is; the others are kinds of words.
_cell_table() {
    case $1 in
    cell)
        options='-h --help --version' first=yes
        forms=('=run machine' '=check machine file' '=asm source' '=gen text' '=debug machine file' '=permute machine file text' '=prove')
        ;;
    hunt)
        options='--runs --time --seed --from --jobs --expect --pass --warn --until --all --tools --json -h --help --version --'
        values=([--runs]='text' [--time]='text' [--seed]='text' [--from]='text' [--jobs]='text' [--expect]='file' [--pass]='file' [--warn]='text' [--until]='file' [--tools]='folder')
        forms=('machine text text' 'machine =each text text' 'machine =record text text')
        ;;
    race)
        options='--race --run --seed -h --help --version --'
        values=([--race]='text text' [--run]='text' [--seed]='text')
        forms=('machine file' 'machine')
        ;;
    picture)
        options='--race --whole --run --seed -h --help --version --'
        values=([--race]='text text' [--run]='text' [--seed]='text')
        forms=('machine file' 'machine')
        ;;
    witness)
        options='-o --force --run --seed -h --help --version --'
        values=([-o]='file' [--run]='text' [--seed]='text')
        forms=('machine file' 'machine')
        ;;
    debug)
        options='--run --seed -h --help --version --'
        values=([--run]='text' [--seed]='text')
        forms=('machine' 'machine file text' 'machine text')
        ;;
    states)
        options='--run --seed -h --help --version --'
        values=([--run]='text' [--seed]='text')
        forms=('machine file text' 'machine text')
        ;;
    log)
        options='--run --seed -h --help --version --'
        values=([--run]='text' [--seed]='text')
        forms=('machine file' 'machine')
        ;;
    explain)
        options='-h --help --version --'
        forms=('file..')
        ;;
    listing)
        options='-h --help --version --'
        forms=('source')
        ;;
    from_gas)
        options='-o -h --help --version --'
        values=([-o]='source')
        forms=('source..')
        ;;
    hunts)
        options='--all --json --warn --sarif --missing -h --help --version --'
        values=([--warn]='text' [--sarif]='file' [--missing]='text')
        forms=('file..')
        ;;
    vectors)
        options='--cases --seed --jobs --archive -h --help --version --'
        values=([--cases]='text' [--seed]='text' [--jobs]='text' [--archive]='file')
        forms=('folder file..')
        ;;
    launch)
        options='-h --help --version --hints --build --prove --compare --checksum --built' first=yes
        values=([--built]='text')
        forms=('=cell_cli file..' '=hunt file..' '=run_trace =alone machine' '=run_trace =choose machine file' '=run_trace =effects machine file' '=run_trace =log machine file' '=run_trace =before machine file' '=run_trace =states machine file' '=run_trace =before machine file text' '=run_trace =states machine file text' '=run_trace =go machine file text file' '=run_trace =lines source' '=run_trace =plan machine' '=run_trace =time machine file')
        ;;
    sources)
        options='-h --help --version --'
        forms=('machine')
        ;;
    site_lines)
        options='--take --json --taken -h --help --version --'
        values=([--take]='folder' [--taken]='folder')
        forms=('machine file..')
        ;;
    hint)
        options='-h --help --version --'
        forms=('=cell_cli text file..' '=hunt text file..')
        ;;
    esac
}

# Puts the words before the current one that are no options into `typed`, and the kinds of the values that the last option still takes into `awaited`.
_cell_read() {
    local place word ended=
    for ((place = 1; place < COMP_CWORD; place++)); do
        word=${COMP_WORDS[place]}
        if [[ $word == = ]]; then # bash cuts --option=value at it
            continue
        elif ((${#awaited[@]})); then
            awaited=("${awaited[@]:1}")
        elif [[ -z $ended && $word == -- ]]; then
            ended=yes
        elif [[ -z $ended && $word == -?* ]]; then
            read -ra awaited <<<"${values[$word]-}"
        else
            typed+=("$word")
        fi
    done
    [[ -z $ended ]] || options=
}

# Prints the kind of the next word in each form that begins with the words that were typed.
_cell_kinds() {
    local form words place last
    for form in "${forms[@]}"; do
        read -ra words <<<"$form"
        last=${words[${#words[@]} - 1]}
        for ((place = ${#words[@]}; place <= ${#typed[@]}; place++)); do
            [[ $last == *.. ]] && words+=("$last")
        done
        for ((place = 0; place < ${#typed[@]}; place++)); do
            [[ ${words[place]-=} != =* || ${words[place]-=} == "=${typed[place]}" ]] || continue 2
        done
        printf '%s\n' "${words[${#typed[@]}]-}"
    done
}

# Offers the files whose names match, and folders; all files if none matches.
_cell_files() {
    local found
    mapfile -t found < <({ compgen -f -X "!$1" -- "$current"; compgen -d -- "$current"; } | sort -u)
    ((${#found[@]})) || mapfile -t found < <(compgen -f -- "$current")
    COMPREPLY+=("${found[@]}")
    compopt -o filenames 2>/dev/null
}

# Offers words of a kind.
_cell_offer() {
    case $1 in
    =*) mapfile -t -O ${#COMPREPLY[@]} COMPREPLY < <(compgen -W "${1#=}" -- "$current") ;;
    machine*) _cell_files '*.cell' ;;
    source*) _cell_files '*.[sS]' ;;
    folder*) _cell_files '' ;;
    file*) _cell_files '*' ;;
    esac
}

_cell() {
    local current=${COMP_WORDS[COMP_CWORD]} options='' first='' kind
    local -A values=()
    local -a forms=() typed=() awaited=()
    COMPREPLY=()
    [[ $current != = ]] || current=
    _cell_table "${1##*/}"
    _cell_read
    if ((${#awaited[@]})); then
        _cell_offer "${awaited[0]}"
    elif [[ $current == -* && -n $options && ( -z $first || $COMP_CWORD -eq 1 ) ]]; then
        mapfile -t COMPREPLY < <(compgen -W "$options" -- "$current")
    else
        while read -r kind; do
            _cell_offer "$kind"
        done < <(_cell_kinds | sort -u)
    fi
}

complete -F _cell cell hunt race picture witness debug states log explain listing from_gas hunts vectors launch sources site_lines hint
