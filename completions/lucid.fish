# Completion of the words of lucid in fish: copy the files *.fish of this folder into ~/.config/fish/completions/

# The file of the program among the words so far, or nothing.
function __lucid_program
    set -l words (commandline -opc)
    set -e words[1]
    set -l is_value no
    for word in $words
        if test $is_value = yes
            set is_value no
        else if contains -- $word --count --depth --policy --age --room --columns --why --check --make
            set is_value yes
        else if not string match -q -- '-*' $word
            echo $word
            return
        end
    end
    return 1
end

# The input names of the program, each with a `=` behind it.
function __lucid_inputs
    set -l command (commandline -opc)[1]
    set -l program (__lucid_program)
    and $command --flat $program 2>/dev/null </dev/null | string replace -r -f '^input (.*)$' '$1='
end

complete -c lucid -l count -x -d 'the most lines, else 20'
complete -c lucid -l depth -x -d 'the depth limit, else 100000'
complete -c lucid -l policy -x -a 'keep none age last' -d 'what is held of computed values'
complete -c lucid -l age -x -d 'with the policy age, for how many sweeps a value stays'
complete -c lucid -l room -x -d 'with the policy last, how many values stay'
complete -c lucid -l stats -d 'say how many lines were written and values held'
complete -c lucid -l columns -x -d 'up to 16 names of the outermost block side by side, parted by commas'
complete -c lucid -l print -d 'write the program with the least parentheses'
complete -c lucid -l cycles -d 'judge the cycles of references'
complete -c lucid -l why -x -d 'write why the value at a time is what it is'
complete -c lucid -l check -r -d 'check such a text'
complete -c lucid -l flat -d 'write the program as a table'
complete -c lucid -l from-flat -d 'run such a table'
complete -c lucid -l make -x -d 'run a made program of N + 1 names'
complete -c lucid -n __lucid_program -a '(__lucid_inputs)' -d input
