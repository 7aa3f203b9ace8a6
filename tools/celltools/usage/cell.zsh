#compdef @NAMES@
# Completion for zsh of ./cell, ./hunt and the programs of tools/. Put its folder into fpath before `compinit`: fpath=(~/cell/share/completions $fpath)
# tools/dev/completions --write made this file: edit tools/celltools/usage.

# Offers, for each form that begins with the words before the current one, what may be next. In a form `=WORD` is typed as it is; the others are kinds of words.
_cell_word() {
    local form place last
    local -a form_words offered typed
    _cell_read
    for form in "${forms[@]}"; do
        form_words=(${=form})
        last=$form_words[-1]
        while [[ $last == *.. ]] && (( $#form_words <= $#typed )); do form_words+=($last); done
        for ((place = 1; place <= $#typed; place++)); do
            [[ -n $form_words[place] ]] || continue 2
            [[ $form_words[place] != \=* || $form_words[place] == "=$typed[place]" ]] || continue 2
        done
        [[ -z $form_words[$#typed+1] ]] || offered+=($form_words[$#typed+1])
    done
    _cell_offer ${(u)offered}
}

# Puts the words before the current one that are no options and no values of options into `typed`.
_cell_read() {
    local word ended= left=0
    for word in "${(@)words[2,CURRENT-1]}"; do
        if (( left )); then
            (( left-- ))
        elif [[ -z $ended && $word == -- ]]; then
            ended=yes
        elif [[ -z $ended && $word == -?* ]]; then
            left=${values[$word]:-0}
        else
            typed+=("$word")
        fi
    done
}

# Offers words of these kinds.
_cell_offer() {
    local kind
    local -a plain=()
    for kind in "$@"; do
        case $kind in
        \=*) plain+=(${kind#=}) ;;
        machine*) _files -g '*.cell' ;;
        source*) _files -g '*.[sS]' ;;
        folder*) _files -/ ;;
        file*) _files ;;
        esac
    done
    (( ! $#plain )) || compadd -- $plain
}

local -a forms options
local -A values # how many each option takes
case ${service:t} in
@TABLE@
esac
_arguments -S : $options '*:word:_cell_word'
