autocmd BufNewFile,BufRead *.deck set filetype=pathway
