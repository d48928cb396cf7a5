" Alloy models, in the part of the language that explore reads; words of Alloy that it refuses stand out.
if exists("b:current_syntax")
  finish
endif
syntax case match
syntax iskeyword @,48-57,_,39
syntax keyword alloyParagraph module open as sig extends fact pred fun assert run check for but exactly expect
syntax keyword alloyWord abstract one lone some no all set disj let in not and or implies iff else
syntax keyword alloyConstant none univ iden
syntax keyword alloyRefused enum seq sum this Int String int private var always eventually after before historically once since until releases triggered steps
syntax match alloyNumber "\<\d\+\>"
syntax match alloyOperator "<=>\|=>\|->\|<:\|:>\|++\|&&\|||\|!=\|>=\|=<\|[-+&.~^*#!=<>|]"
syntax keyword alloyTodo contained TODO FIXME
syntax match alloyComment "//.*$" contains=alloyTodo
syntax match alloyComment "--.*$" contains=alloyTodo
syntax region alloyComment start="/\*" end="\*/" contains=alloyTodo
highlight default link alloyParagraph Statement
highlight default link alloyWord Keyword
highlight default link alloyConstant Constant
highlight default link alloyRefused Error
highlight default link alloyNumber Number
highlight default link alloyOperator Operator
highlight default link alloyComment Comment
highlight default link alloyTodo Todo
let b:current_syntax = "alloy"
