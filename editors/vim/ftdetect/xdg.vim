" Files whose names end in .xdg are grammars of xdg.
autocmd BufRead,BufNewFile *.xdg setfiletype xdg
