#!/usr/bin/env -S zsh -f
# The completion for zsh loads and completes: run from the top of the repository; silent with status 0 where all is right.
zmodload zsh/zpty || exit 1

failed=0
work=$(mktemp -d) || exit 1
trap 'rm -rf $work' EXIT
printf '#!/bin/sh\nprintf "lucid flat 1\\ninput sales\\nroot 0\\n"\n' >$work/lucid
chmod +x $work/lucid

zpty -b shell zsh -f -i
zpty -w shell "PS1=; path=($work \$path); fpath=($PWD/completions \$fpath); autoload -Uz compinit; compinit -D -u; zstyle ':completion:*' list-prompt ''; echo rea''dy"
zpty -r -m shell out '*ready*' || { print 'zsh: no shell'; exit 1 }

# a line that is typed, a tab behind it, and what the line has then to be, without a mark that goes away at the next key
typed() {
  local out all='' tries
  zpty -n -w shell "$1"$'\t'$'\C-a'"echo '<"$'\C-e'">'"$'\n'
  for ((tries = 0; tries < 100; tries++)); do
    while zpty -r -t shell out; do all+=$out; done
    [[ $all == *$'\n'*'<'*'>'* ]] && break
    sleep 0.05
  done
  [[ $all == *$'\n'"<$2>"* ]] || { print -r "zsh: no '$2' in ${(V)all}"; failed=1 }
}

typed 'lucid --pol' 'lucid --policy'
typed 'lucid --policy=l' 'lucid --policy=last'
typed 'lucid --cy' 'lucid --cycles'
typed 'lucid READ' 'lucid README.md'
typed 'lucid README.md s' 'lucid README.md sales='
typed 'lucid README.md sales=READ' 'lucid README.md sales=README.md'
zpty -d shell
exit $failed
