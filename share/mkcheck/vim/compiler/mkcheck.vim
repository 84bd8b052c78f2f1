" Runs mkcheck-audit as Vim's make, and puts its findings into the quickfix list.
if exists("current_compiler")
  finish
endif
let current_compiler = "mkcheck"

CompilerSet makeprg=mkcheck-audit
CompilerSet errorformat=%f:%l:\ %m\ [%*[a-z]],%-G%.%#
