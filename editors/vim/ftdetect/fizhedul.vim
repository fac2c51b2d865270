" Databases, queries and edits of Fizhedul.
autocmd BufNewFile,BufRead *.lrp,*.lrq,*.lre setfiletype fizhedul
