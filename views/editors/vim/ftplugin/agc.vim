" Fields stand at every eighth column, and a comment begins at #.
if exists("b:did_ftplugin")
    finish
endif
let b:did_ftplugin = 1
setlocal commentstring=#\ %s comments=:# tabstop=8
let &l:errorformat = '%f:%l:%c: %trror %m,%f:%l:%c: %tarning %m,%-G%.%#'
let &l:makeprg = 'agcws check %:S'
let b:undo_ftplugin = "setlocal commentstring< comments< tabstop< errorformat< makeprg<"
