#!/bin/bash
# The completion for bash loads and completes: run from the top of the repository; silent with status 0 where all is right.
. completions/lucid.bash || exit 1

# what completes the words given; the last one is being typed
completed() {
    COMP_WORDS=("$@") COMP_CWORD=$(($# - 1))
    _lucid
    echo "${COMPREPLY[*]}"
}

failed=0
same() {
    [[ $1 == "$2" ]] || { echo "bash: '$1' in place of '$2'"; failed=1; }
}

# a command that tells the inputs of a program, in place of lucid
stand_in=$(mktemp) || exit 1
trap 'rm -f "$stand_in"' EXIT
printf '#!/bin/sh\nprintf "lucid flat 1\\ninput sales\\ninput stock\\nnode 0 input 0\\nroot 0\\n"\n' >"$stand_in"
chmod +x "$stand_in"

complete -p lucid >/dev/null || failed=1
same "$(completed lucid --po)" '--policy'
same "$(completed lucid --c)" '--count --columns --cycles --check'
same "$(completed lucid --policy '')" 'keep none age last'
same "$(completed lucid --policy = l)" 'last'
same "$(completed lucid --policy '=')" 'keep none age last'
same "$(completed lucid --count '')" ''
same "$(completed lucid READ)" 'README.md'
same "$(completed "$stand_in" README.md --check READ)" 'README.md'
same "$(completed "$stand_in" --count = 5 README.md '')" 'sales= stock='
same "$(completed "$stand_in" --policy none README.md st)" 'stock='
same "$(completed lucid README.md sales = READ)" 'README.md'
exit $failed
