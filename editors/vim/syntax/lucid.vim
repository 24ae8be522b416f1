" Colours for pLucid: the words, marks and constants of docs/LANGUAGE.md.
if exists('b:current_syntax')
  finish
endif

syntax case match

syntax keyword lucidBlock where end is current
syntax keyword lucidChoice if then else fi
syntax keyword lucidTime first next fby whenever wvr asa upon attime
syntax keyword lucidSpace initial succ sby atspace
syntax keyword lucidOperator and or not div mod eq ne cmp abs
syntax keyword lucidFunction hd tl length substr nth mkword mkstring
syntax keyword lucidFunction isint isword isstring islist istruth isnull isatom iseod iserror
syntax keyword lucidTruth true false
syntax keyword lucidSpecial eod error

" a name, so that its digits are no number
syntax match lucidName "\<\a[0-9A-Za-z_]*\>" contains=NONE
syntax match lucidNumber "\%([0-9A-Za-z_]\)\@1<!\d\+"
syntax match lucidMark "\*\*\|<=\|>=\|::\|<>\|[-+*<>^=]"
syntax match lucidWord "\"\a[0-9A-Za-z]*\""
syntax match lucidString "`[ -&(-_a-~]*'"
syntax region lucidList matchgroup=lucidBracket start="\[%" end="%\]" contains=lucidList,lucidItem,lucidString,lucidItemNumber,lucidItemTruth
syntax match lucidItem "\a[0-9A-Za-z]*" contained
syntax match lucidItemNumber "-\?\d\+" contained
syntax keyword lucidItemTruth true false contained
syntax match lucidBracket "\[\]"
syntax match lucidComment "//.*$" contains=@Spell

highlight default link lucidBlock Keyword
highlight default link lucidChoice Conditional
highlight default link lucidTime Statement
highlight default link lucidSpace Statement
highlight default link lucidOperator Operator
highlight default link lucidFunction Function
highlight default link lucidTruth Boolean
highlight default link lucidSpecial Constant
highlight default link lucidNumber Number
highlight default link lucidMark Operator
highlight default link lucidWord Constant
highlight default link lucidString String
highlight default link lucidBracket Delimiter
highlight default link lucidItem Constant
highlight default link lucidItemNumber Number
highlight default link lucidItemTruth Boolean
highlight default link lucidComment Comment

let b:current_syntax = 'lucid'
