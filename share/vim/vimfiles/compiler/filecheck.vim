" Faults of filecheck as a list of places: `:compiler filecheck`, then `:make -v PATH` runs lit.
if exists("current_compiler")
  finish
endif
let current_compiler = "filecheck"
CompilerSet makeprg=lit
CompilerSet errorformat=%f:%l:%c:\ %trror:\ %m,%f:%l:%c:\ %tote:\ %m,%-G%.%#
