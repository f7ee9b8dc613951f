autocmd BufRead,BufNewFile *.dil setfiletype dil
