autocmd BufNewFile,BufRead *.agc setfiletype agc
