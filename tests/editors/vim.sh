#!/bin/sh
# The colours and the compiler file for Vim load and fit: run from the top of the repository; silent with status 0 where all is right.
work=$(mktemp -d) || exit 1
trap 'rm -rf "$work"' EXIT
cat >"$work/p.lucid" <<'END'
x1 where x1 = 0 fby x1 + 12; end // a comment
"dog" `a // text' [% 1 dog true %] true eod iseod
END
cat >"$work/check.vim" <<'END'
let s:wrong = []
function! s:Same(line, column, group)
  let l:got = synIDattr(synID(a:line, a:column, 1), 'name')
  if l:got !=# a:group
    call add(s:wrong, 'vim: ' . l:got . ' in place of ' . a:group . ' at ' . a:line . ', ' . a:column)
  endif
endfunction
if &filetype !=# 'lucid' | call add(s:wrong, 'vim: the file type is ' . &filetype) | endif
call s:Same(1, 1, 'lucidName')
call s:Same(1, 2, 'lucidName')
call s:Same(1, 4, 'lucidBlock')
call s:Same(1, 13, 'lucidMark')
call s:Same(1, 15, 'lucidNumber')
call s:Same(1, 17, 'lucidTime')
call s:Same(1, 26, 'lucidNumber')
call s:Same(1, 30, 'lucidBlock')
call s:Same(1, 34, 'lucidComment')
call s:Same(2, 2, 'lucidWord')
call s:Same(2, 10, 'lucidString')
call s:Same(2, 19, 'lucidBracket')
call s:Same(2, 22, 'lucidItemNumber')
call s:Same(2, 24, 'lucidItem')
call s:Same(2, 28, 'lucidItemTruth')
call s:Same(2, 36, 'lucidTruth')
call s:Same(2, 41, 'lucidSpecial')
call s:Same(2, 45, 'lucidFunction')
compiler lucid_explain
silent make!
let s:got = getqflist()
if len(s:got) != 3 | call add(s:wrong, 'vim: the list of errors is ' . string(s:got)) | endif
if [bufname(s:got[0].bufnr), s:got[0].lnum, s:got[0].col, s:got[0].text] != ['program.lucid', 2, 9, 'syntax at 16']
  call add(s:wrong, 'vim: the place is ' . string(s:got[0]))
endif
if s:got[2].valid || s:got[2].text !=# 'What may stand here: `;`.' | call add(s:wrong, 'vim: the text is ' . string(s:got[2])) | endif
call writefile(s:wrong, expand('<sfile>:h') . '/wrong')
END
# in place of lucid_explain: a table, and an explained report
cat >"$work/lucid_explain" <<'END'
#!/bin/sh
echo 'lucid flat 1'
printf '%s\n' 'syntax at 16' 'program.lucid:2:9:' '  x = 1 end' '        ^' 'Here stands `end`.' 'What may stand here: `;`.' >&2
exit 1
END
chmod +x "$work/lucid_explain"
PATH=$work:$PATH timeout 30 vim -u NONE -i NONE -N -n -es -c "set runtimepath^=$PWD/editors/vim" -c 'filetype on' -c 'syntax on' \
    -c "edit $work/p.lucid" -c "source $work/check.vim" -c 'qall!' </dev/null >/dev/null
[ -f "$work/wrong" ] || { echo 'vim: the check did not run'; exit 1; }
[ ! -s "$work/wrong" ] || { cat "$work/wrong"; exit 1; }
