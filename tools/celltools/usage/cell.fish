# Completion for fish of ./cell, ./hunt and the programs of tools/. Load it by `source share/completions/cell.fish`.
# tools/dev/completions --write made this file: edit tools/celltools/usage.

# Prints the forms of a program. `=WORD` is typed as it is; the others are kinds of words.
function __cell_forms
    switch $argv[1]
@FORMS@
    end
end

# Prints the options of a program that take values, once for each value.
function __cell_values
    switch $argv[1]
@VALUES@
    end
end

# Prints the words before the current one that are no options and no values of options; `--` as the last if an option still takes a value.
function __cell_typed
    set -l left 0
    for word in (commandline -opc)[2..]
        if test $left -gt 0
            set left (math $left - 1)
        else if string match -q -- '-?*' $word
            set left (__cell_values $argv[1] | string match -- $word | count)
        else
            echo -- $word
        end
    end
    test $left -eq 0; or echo -- --
end

# Prints the kind of the next word in each form that begins with the words that were typed.
function __cell_kinds
    set -l typed (__cell_typed $argv[1])
    test "$typed[-1]" = --; and return
    set -l next (math (count $typed) + 1)
    for form in (__cell_forms $argv[1])
        set -l words (string split ' ' -- $form)
        set -l fits yes
        for place in (seq (count $typed))
            set -l word $words[$place]
            string match -q -- '*..' $words[-1]; and test $place -gt (count $words); and set word $words[-1]
            if test -z "$word"; or begin
                    string match -q -- '=*' $word; and test $word != =$typed[$place]
                end
                set fits no
            end
        end
        test $fits = no; and continue
        if test $next -le (count $words)
            echo -- $words[$next]
        else if string match -q -- '*..' $words[-1]
            echo -- $words[-1]
        end
    end
end

# Prints the files whose names match, and folders; all files if none matches.
function __cell_files
    set -l all (__fish_complete_path (commandline -ct))
    set -l found (string match -r -- "^.*(?:$argv[1]|/)(?:\t.*)?\$" $all)
    if set -q found[1]
        printf '%s\n' $found
    else if set -q all[1]
        printf '%s\n' $all
    end
end

# Prints what may be next.
function __cell_words
    for kind in (__cell_kinds $argv[1] | sort -u)
        switch $kind
            case '=*'
                string sub -s 2 -- $kind
            case 'machine*'
                __cell_files '\.cell'
            case 'source*'
                __cell_files '\.[sS]'
            case 'folder*'
                __fish_complete_directories
            case 'file*'
                __fish_complete_path (commandline -ct)
        end
    end
end

@COMPLETES@
