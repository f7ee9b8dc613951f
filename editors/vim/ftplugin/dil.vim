" Vim filetype plugin for the stream language of piperench.
if exists("b:did_ftplugin")
  finish
endif
let b:did_ftplugin = 1

setlocal comments=:// commentstring=//\ %s
setlocal formatoptions-=t formatoptions+=croql
compiler piperench

let b:undo_ftplugin = "setlocal comments< commentstring< formatoptions< makeprg< errorformat< | unlet! b:current_compiler"
