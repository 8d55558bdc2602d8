" `:make` checks the text and jumps to where it is refused; `:copen` shows why.
if exists("current_compiler")
  finish
endif
let current_compiler = "idc"

let s:root = shellescape(fnamemodify(resolve(expand("<sfile>:p")), ":h:h:h:h"))
let &l:makeprg = s:root . "/tools/explain --check %:S"
CompilerSet errorformat=%-Gidc:\ %m,%f:%l:%c:\ %m,%f:\ %m
