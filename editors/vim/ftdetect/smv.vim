autocmd BufNewFile,BufRead *.smv setfiletype smv
