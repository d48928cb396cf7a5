" :make tells all places of a model that explore doesn't take, by `scenes --look`.
if exists("current_compiler")
  finish
endif
let current_compiler = "scenes"
CompilerSet makeprg=scenes\ --look\ %:S
" A place, its line and the caret, and the cure, which is told behind the place; all other lines are left out.
CompilerSet errorformat=%E~\ %f:%l:%c:\ %m,%-C~\ \ \ \ \ %.%#,%Z~\ \ \ %m,%-G%.%#
