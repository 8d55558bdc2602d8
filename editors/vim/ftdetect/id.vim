" Texts of idc end in .id.
autocmd BufNewFile,BufRead *.id setfiletype id
