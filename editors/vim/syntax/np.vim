" The tokens of docs/LANGUAGE.md, and the places that a source names: sites where they are listed, and where something goes.
if exists('b:current_syntax')
  finish
endif
syntax case match
syntax iskeyword @,48-57,_,'

syntax keyword npKeyword new in agent migrate let print iflocal if then else
syntax keyword npKeyword at to nextgroup=npPlace skipwhite skipempty
syntax keyword npMain main
syntax keyword npTruth true false
syntax keyword npType Int Bool String Site Agent
syntax match npName "\<\a\k*\>"
syntax match npNumber "0\|[1-9][0-9]*"
syntax match npSign "[;=()|:^?!*<>[\]+_-]"
syntax match npSign "->\|=="
syntax match npSign "@" nextgroup=npPlace skipwhite skipempty
syntax match npComment "--.*$" contains=npTodo,@Spell
syntax keyword npTodo TODO contained
syntax match npEscape +\\[n"\\]+ contained
syntax region npString start=+"+ skip=+\\.+ end=+"+ oneline contains=npEscape
syntax match npPlace "\<\%(main\>\)\@!\a\k*\>" contained
syntax region npSites matchgroup=npKeyword start="\<sites\>" end=";"me=s-1 contains=npPlace,npComment

highlight default link npKeyword Keyword
highlight default link npMain Identifier
highlight default link npTruth Boolean
highlight default link npType Type
highlight default link npNumber Number
highlight default link npSign Operator
highlight default link npComment Comment
highlight default link npTodo Todo
highlight default link npString String
highlight default link npEscape SpecialChar
highlight default link npPlace Constant
let b:current_syntax = 'np'
