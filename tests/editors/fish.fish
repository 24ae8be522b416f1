#!/usr/bin/env -S fish --no-config
# The completion for fish loads and completes: run from the top of the repository; silent with status 0 where all is right.
set -g failed 0
set -g work (mktemp -d)
or exit 1
printf '#!/bin/sh\nprintf "lucid flat 1\\\\ninput sales\\\\nroot 0\\\\n"\n' >$work/lucid
chmod +x $work/lucid
set -gx PATH $work $PATH
source completions/lucid.fish
and source completions/lucid_explain.fish
or exit 1

# what completes a line, without the explanations
function same
    set -l got (complete -C "$argv[1]" | string replace -r '\t.*' '')
    if test "$got" != "$argv[2..-1]"
        echo "fish: '$argv[1]' gives '$got' in place of '$argv[2..-1]'"
        set -g failed 1
    end
end

same 'lucid --pol' --policy
same 'lucid --cy' --cycles
same 'lucid_explain --cy' --cycles
same 'lucid --policy l' last
same 'lucid --policy=l' --policy=last
same 'lucid READ' README.md
same 'lucid --count 5 README.md sa' sales=
same 'lucid README.md sales=READ' sales=README.md
rm -rf $work
exit $failed
