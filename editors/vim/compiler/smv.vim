" `:compiler smv` and `:make` check the file, and `:cnext` goes to what is refused or false.
if exists("current_compiler")
  finish
endif
let current_compiler = "smv"
CompilerSet makeprg=smv\ diagnose\ --\ %:S
CompilerSet errorformat=%f:%l:%c:\ %trror:\ %m,%f:%l:%c:\ %tarning:\ %m,%f:%l:%c:\ %tote:\ %m
