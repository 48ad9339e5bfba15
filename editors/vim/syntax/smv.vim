" McMillan's SMV language, in the profile of docs/LANGUAGE.md.
if exists("b:current_syntax")
  finish
endif
syntax case match

" Names come first: of what matches at one place, the item that is defined last is taken. A `-` belongs to a name only
" where a letter, a digit or `_` follows it, so `next-state` is one name, and in `a->b` there are two.
syntax match smvName "\a\%(\w\|-\w\@=\)*"
syntax match smvNumber "\d\+"
syntax match smvOperator ":=\|\.\.\|<->\|->\|[<>]=\|[=<>&|+*/-]\|!=\@!"
syntax match smvSection "\%(MODULE\|VAR\|ASSIGN\|DEFINE\|INIT\|INVAR\|TRANS\|SPEC\|FAIRNESS\)\%(\w\|-\w\)\@!"
syntax match smvType "\%(boolean\|process\|array\|of\)\%(\w\|-\w\)\@!"
syntax match smvKeyword "\%(init\|next\|case\|esac\|running\)\%(\w\|-\w\)\@!"
syntax match smvOperator "\%(mod\|union\|in\)\%(\w\|-\w\)\@!"
syntax match smvPath "\%([AE][XFG]\|[AEU]\)\%(\w\|-\w\)\@!"
syntax match smvConstant "\%(TRUE\|FALSE\)\%(\w\|-\w\)\@!"

" Words that are reserved and have no meaning, and signs that the language lacks.
syntax match smvLeftOut "\%(ISA\|COMPUTE\|INPUT\|OUTPUT\|OPAQUE\|self\|LTLSPEC\|IVAR\)\%(\w\|-\w\)\@!"
syntax match smvLeftOut "!=\|==\|&&\|||\|[?%^~#@$\\'`\"]"

syntax keyword smvTodo TODO FIXME XXX contained
syntax match smvComment "--.*$" contains=smvTodo,@Spell

highlight default link smvNumber Number
highlight default link smvOperator Operator
highlight default link smvSection Structure
highlight default link smvType Type
highlight default link smvKeyword Statement
highlight default link smvPath Special
highlight default link smvConstant Constant
highlight default link smvLeftOut Error
highlight default link smvTodo Todo
highlight default link smvComment Comment

let b:current_syntax = "smv"
