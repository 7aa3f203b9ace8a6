# Completion for fish of ./cell, ./hunt and the programs of tools/. Load it by `source share/completions/cell.fish`.
# tools/dev/completions --write made this file: edit tools/celltools/usage.

# Prints the forms of a program. `=WORD` is typed as it is; the others are kinds of words.
function __cell_forms
    switch $argv[1]
        case cell
            printf '%s\n' '=run machine' '=check machine file' '=asm source' '=gen text' '=debug machine file' '=permute machine file text' '=prove'
        case hunt
            printf '%s\n' 'machine text text' 'machine =each text text' 'machine =record text text'
        case race
            printf '%s\n' 'machine file' 'machine'
        case picture
            printf '%s\n' 'machine file' 'machine'
        case witness
            printf '%s\n' 'machine file' 'machine'
        case debug
            printf '%s\n' 'machine' 'machine file text' 'machine text'
        case states
            printf '%s\n' 'machine file text' 'machine text'
        case log
            printf '%s\n' 'machine file' 'machine'
        case explain
            printf '%s\n' 'file..'
        case listing
            printf '%s\n' 'source'
        case from_gas
            printf '%s\n' 'source..'
        case hunts
            printf '%s\n' 'file..'
        case vectors
            printf '%s\n' 'folder file..'
        case launch
            printf '%s\n' '=cell_cli file..' '=hunt file..' '=run_trace =alone machine' '=run_trace =choose machine file' '=run_trace =effects machine file' '=run_trace =log machine file' '=run_trace =before machine file' '=run_trace =states machine file' '=run_trace =before machine file text' '=run_trace =states machine file text' '=run_trace =go machine file text file' '=run_trace =lines source' '=run_trace =plan machine' '=run_trace =time machine file'
        case sources
            printf '%s\n' 'machine'
        case site_lines
            printf '%s\n' 'machine file..'
        case hint
            printf '%s\n' '=cell_cli text file..' '=hunt text file..'
    end
end

# Prints the options of a program that take values, once for each value.
function __cell_values
    switch $argv[1]
        case hunt
            printf '%s\n' '--runs' '--time' '--seed' '--from' '--jobs' '--expect' '--pass' '--warn' '--until' '--tools'
        case race
            printf '%s\n' '--race' '--race' '--run' '--seed'
        case picture
            printf '%s\n' '--race' '--race' '--run' '--seed'
        case witness
            printf '%s\n' '-o' '--run' '--seed'
        case debug
            printf '%s\n' '--run' '--seed'
        case states
            printf '%s\n' '--run' '--seed'
        case log
            printf '%s\n' '--run' '--seed'
        case from_gas
            printf '%s\n' '-o'
        case hunts
            printf '%s\n' '--warn' '--sarif' '--missing'
        case vectors
            printf '%s\n' '--cases' '--seed' '--jobs' '--archive'
        case launch
            printf '%s\n' '--built'
        case site_lines
            printf '%s\n' '--take' '--taken'
    end
end

# Prints the words before the current one that are no options and no values of options; `--` as the last if an option still takes a value.
function __cell_typed
    set -l left 0
    for word in (commandline -opc)[2..]
        if test $left -gt 0
            set left (math $left - 1)
        else if string match -q -- '-?*' $word
            set left (__cell_values $argv[1] | string match -- $word | count)
        else
            echo -- $word
        end
    end
    test $left -eq 0; or echo -- --
end

# Prints the kind of the next word in each form that begins with the words that were typed.
function __cell_kinds
    set -l typed (__cell_typed $argv[1])
    test "$typed[-1]" = --; and return
    set -l next (math (count $typed) + 1)
    for form in (__cell_forms $argv[1])
        set -l words (string split ' ' -- $form)
        set -l fits yes
        for place in (seq (count $typed))
            set -l word $words[$place]
            string match -q -- '*..' $words[-1]; and test $place -gt (count $words); and set word $words[-1]
            if test -z "$word"; or begin
                    string match -q -- '=*' $word; and test $word != =$typed[$place]
                end
                set fits no
            end
        end
        test $fits = no; and continue
        if test $next -le (count $words)
            echo -- $words[$next]
        else if string match -q -- '*..' $words[-1]
            echo -- $words[-1]
        end
    end
end

# Prints the files whose names match, and folders; all files if none matches.
function __cell_files
    set -l all (__fish_complete_path (commandline -ct))
    set -l found (string match -r -- "^.*(?:$argv[1]|/)(?:\t.*)?\$" $all)
    if set -q found[1]
        printf '%s\n' $found
    else if set -q all[1]
        printf '%s\n' $all
    end
end

# Prints what may be next.
function __cell_words
    for kind in (__cell_kinds $argv[1] | sort -u)
        switch $kind
            case '=*'
                string sub -s 2 -- $kind
            case 'machine*'
                __cell_files '\.cell'
            case 'source*'
                __cell_files '\.[sS]'
            case 'folder*'
                __fish_complete_directories
            case 'file*'
                __fish_complete_path (commandline -ct)
        end
    end
end

complete -c cell -f
complete -c cell -k -a '(__cell_words cell)'
complete -c cell -s h -d 'print this text'
complete -c cell -l help -d 'print this text'
complete -c cell -l version -d 'print the version, and what the programs were proved with'
complete -c hunt -f
complete -c hunt -k -a '(__cell_words hunt)'
complete -c hunt -l runs -x -d 'the number of runs, 1 to 1,000,000 (default 1,000, or fewer if they are long: docs/guide/hunting.md; 200 for `each`)'
complete -c hunt -l time -x -d 'end the hunt after S seconds, 1 to 1,000,000, as 60 or 60s; without --runs it makes up to 1,000,000 runs'
complete -c hunt -l seed -x -d 'the seed of the random schedules (default 1)'
complete -c hunt -l from -x -d 'the number of the first run (default 0)'
complete -c hunt -l jobs -x -d 'the number of threads, 1 to 256 (default: one for each core)'
complete -c hunt -l expect -rF -d 'each line of FILE has to be among the states of every run'
complete -c hunt -l pass -rF -d 'suppressions: the data races in FILE, as ./hunt prints them, aren\'t reported'
complete -c hunt -l warn -x -d 'what to do with warnings: `print` them (default), look for `none`, or `error`: print them, and count them as failures'
complete -c hunt -l until -rF -d 'end the hunt once FILE exists, and report on the runs made so far'
complete -c hunt -l all -d 'print all findings (failures and warnings), not only the first four'
complete -c hunt -l tools -xa '(__fish_complete_directories)' -d 'the folder of the tools in the commands that the report prints (default: that of this ./hunt)'
complete -c hunt -l json -d 'print a part for tools/hunts: one JSON object a line'
complete -c hunt -s h -d 'print this text'
complete -c hunt -l help -d 'print this text'
complete -c hunt -l version -d 'print the version, and what the programs were proved with'
complete -c race -f
complete -c race -k -a '(__cell_words race)'
complete -c race -l race -x -d 'explain the race of steps I and J'
complete -c race -l run -x -d 'run K of the hunt `./hunt MACHINE RUNS S`, in the place of a record'
complete -c race -l seed -x -d 'the seed S of that hunt (default 1)'
complete -c race -s h -d 'print this text'
complete -c race -l help -d 'print this text'
complete -c race -l version -d 'print the version, and what the programs were proved with'
complete -c picture -f
complete -c picture -k -a '(__cell_words picture)'
complete -c picture -l race -x -d 'open at the race of steps I and J'
complete -c picture -l whole -d 'draw all steps'
complete -c picture -l run -x -d 'run K of the hunt `./hunt MACHINE RUNS S`, in the place of a record'
complete -c picture -l seed -x -d 'the seed S of that hunt (default 1)'
complete -c picture -s h -d 'print this text'
complete -c picture -l help -d 'print this text'
complete -c picture -l version -d 'print the version, and what the programs were proved with'
complete -c witness -f
complete -c witness -k -a '(__cell_words witness)'
complete -c witness -s o -rF -d 'the name of the records (default RECORD; with --run, MACHINE with -K for its ending)'
complete -c witness -l force -d 'write over files that exist'
complete -c witness -l run -x -d 'run K of the hunt `./hunt MACHINE RUNS S`, in the place of a record'
complete -c witness -l seed -x -d 'the seed S of that hunt (default 1)'
complete -c witness -s h -d 'print this text'
complete -c witness -l help -d 'print this text'
complete -c witness -l version -d 'print the version, and what the programs were proved with'
complete -c debug -f
complete -c debug -k -a '(__cell_words debug)'
complete -c debug -l run -x -d 'run K of the hunt `./hunt MACHINE RUNS S`, in the place of a record'
complete -c debug -l seed -x -d 'the seed S of that hunt (default 1)'
complete -c debug -s h -d 'print this text'
complete -c debug -l help -d 'print this text'
complete -c debug -l version -d 'print the version, and what the programs were proved with'
complete -c states -f
complete -c states -k -a '(__cell_words states)'
complete -c states -l run -x -d 'run K of the hunt `./hunt MACHINE RUNS S`, in the place of a record'
complete -c states -l seed -x -d 'the seed S of that hunt (default 1)'
complete -c states -s h -d 'print this text'
complete -c states -l help -d 'print this text'
complete -c states -l version -d 'print the version, and what the programs were proved with'
complete -c log -f
complete -c log -k -a '(__cell_words log)'
complete -c log -l run -x -d 'run K of the hunt `./hunt MACHINE RUNS S`, in the place of a record'
complete -c log -l seed -x -d 'the seed S of that hunt (default 1)'
complete -c log -s h -d 'print this text'
complete -c log -l help -d 'print this text'
complete -c log -l version -d 'print the version, and what the programs were proved with'
complete -c explain -f
complete -c explain -k -a '(__cell_words explain)'
complete -c explain -s h -d 'print this text'
complete -c explain -l help -d 'print this text'
complete -c explain -l version -d 'print the version, and what the programs were proved with'
complete -c listing -f
complete -c listing -k -a '(__cell_words listing)'
complete -c listing -s h -d 'print this text'
complete -c listing -l help -d 'print this text'
complete -c listing -l version -d 'print the version, and what the programs were proved with'
complete -c from_gas -f
complete -c from_gas -k -a '(__cell_words from_gas)'
complete -c from_gas -s o -xa '(__cell_files \\.[sS])' -d 'the output, which is written whole or not at all (default: standard output)'
complete -c from_gas -s h -d 'print this text'
complete -c from_gas -l help -d 'print this text'
complete -c from_gas -l version -d 'print the version, and what the programs were proved with'
complete -c hunts -f
complete -c hunts -k -a '(__cell_words hunts)'
complete -c hunts -l all -d 'print all findings (failures and warnings), in place of the first four'
complete -c hunts -l json -d 'print the sum as --json of ./hunt prints it'
complete -c hunts -l warn -x -d 'what to do with warnings: `print` them (default), leave them out with `none`, or `error`: print them, and count them as failures'
complete -c hunts -l sarif -rF -d 'also write the findings as SARIF 2.1.0 to OUT, over what is there'
complete -c hunts -l missing -x -d 'print, in place of a report, which of the runs 0 to N - 1 no part has: a line `--from K --runs M` for each gap, the words for ./hunt'
complete -c hunts -s h -d 'print this text'
complete -c hunts -l help -d 'print this text'
complete -c hunts -l version -d 'print the version, and what the programs were proved with'
complete -c vectors -f
complete -c vectors -k -a '(__cell_words vectors)'
complete -c vectors -l cases -x -d 'the number of cases in each file, 1 to 1,000 (default 1,000)'
complete -c vectors -l seed -x -d 'the seed of the random values (default 1)'
complete -c vectors -l jobs -x -d 'the number of files that are made at once (default: one for each core)'
complete -c vectors -l archive -rF -d 'write all files as one archive, FILE.tar.xz, and print its SHA-256'
complete -c vectors -s h -d 'print this text'
complete -c vectors -l help -d 'print this text'
complete -c vectors -l version -d 'print the version, and what the programs were proved with'
complete -c launch -f
complete -c launch -k -a '(__cell_words launch)'
complete -c launch -s h -d ''
complete -c launch -l help -d 'print this text (also -h)'
complete -c launch -l version -d 'print the version (the file VERSION), which programs there are, and of which sources'
complete -c launch -l hints -d 'the same; after what `cell` or `hunt` refuses, tools/hint prints the file, the line and a hint'
complete -c launch -l build -d 'prove and build them, if they aren\'t built'
complete -c launch -l prove -d 'prove and build them in any case, and compare them with those of bin/'
complete -c launch -l compare -d 'compare those that are built with those of bin/'
complete -c launch -l checksum -d 'print the checksum of the sources, for'
complete -c launch -l built -x -d 'take the programs that are there as built, if the sources still have that checksum'
complete -c sources -f
complete -c sources -k -a '(__cell_words sources)'
complete -c sources -s h -d 'print this text'
complete -c sources -l help -d 'print this text'
complete -c sources -l version -d 'print the version, and what the programs were proved with'
complete -c site_lines -f
complete -c site_lines -k -a '(__cell_words site_lines)'
complete -c site_lines -l take -xa '(__fish_complete_directories)' -d 'copy the files of a hunt into FOLDER; the program then runs in FOLDER/here'
complete -c site_lines -l json -d 'make a part'
complete -c site_lines -l taken -xa '(__fish_complete_directories)' -d 'the folder of the copies (default: the files as they are now)'
complete -c site_lines -s h -d 'print this text'
complete -c site_lines -l help -d 'print this text'
complete -c site_lines -l version -d 'print the version, and what the programs were proved with'
complete -c hint -f
complete -c hint -k -a '(__cell_words hint)'
complete -c hint -s h -d 'print this text'
complete -c hint -l help -d 'print this text'
complete -c hint -l version -d 'print the version, and what the programs were proved with'
