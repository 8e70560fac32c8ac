autocmd BufNewFile,BufRead *.aeth setfiletype aeth
