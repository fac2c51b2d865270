" The plugin for tar archives claims the ending .lrp; a database is a text.
silent! autocmd! tar BufReadCmd *.lrp
