" Files of pLucid programs are those that end in .lucid.
autocmd BufRead,BufNewFile *.lucid setfiletype lucid
