" Comments of idc's language begin with % and go to the end of the line.
if exists("b:did_ftplugin")
  finish
endif
let b:did_ftplugin = 1

setlocal comments=:%
setlocal commentstring=%\ %s
compiler idc

let b:undo_ftplugin = "setlocal comments< commentstring< makeprg< errorformat<"
