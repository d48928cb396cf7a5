" Scripts of explore: a model goes up to the next line that begins with ==.
if exists("b:current_syntax")
  finish
endif
syntax include @exploreAlloy syntax/alloy.vim
unlet! b:current_syntax
syntax case match
syntax match exploreRemark "^#.*$"
syntax match exploreCommand "^\s*\(next\|offers\|back\|proof\)\s*$"
syntax match exploreCommand "^\s*\(all\|budget\)\s\+\d\+\s*$" contains=exploreNumber
syntax match exploreCommand "^\s*augment\s\+\S\+\s\+\S\+\s*$" contains=exploreAtom
syntax match exploreAtom contained "\h\w*\$\d\+"
syntax match exploreNumber contained "\<\d\+\>"
syntax match exploreDirective "^== \(session\|more\) .*$" contains=exploreNumber
syntax region exploreModel matchgroup=exploreDirective start="^== model .*$" end="^\ze==" contains=@exploreAlloy keepend
syntax sync fromstart
highlight default link exploreRemark Comment
highlight default link exploreCommand Statement
highlight default link exploreAtom Identifier
highlight default link exploreNumber Number
highlight default link exploreDirective PreProc
let b:current_syntax = "explore"
