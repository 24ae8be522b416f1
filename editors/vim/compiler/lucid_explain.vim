" Compiler file for pLucid: `:compiler lucid_explain`, then `:make` looks at the file without a run, and `:cnext` goes to the place
" of what is wrong. For a run with words of your own: `:set makeprg=lucid_explain\ %:S\ a=numbers`.
if exists('current_compiler')
  finish
endif
let current_compiler = 'lucid_explain'

if exists(':CompilerSet') != 2
  command -nargs=* CompilerSet setlocal <args>
endif

" What the table holds isn't wanted, only what is reported.
CompilerSet makeprg=(lucid_explain\ --flat\ $*\ %:S\ 2>&1\ >/dev/null)

" A report, its place, the line of the source and a mark under the place. What explains it is kept below as text.
CompilerSet errorformat=
      \%+E%*[a-z\ ]\ at\ %*\\d%.%#,
      \%+Ejudgment\ %*\\d\ does\ not\ follow,
      \%C%f:%l:%c:,
      \%-Z\ %#^,
      \%-C%.%#
