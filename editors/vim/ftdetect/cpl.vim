autocmd BufRead,BufNewFile *.cpl setfiletype cpl
