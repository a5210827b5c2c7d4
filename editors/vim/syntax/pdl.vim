" Vim syntax file for PDL, as pdl reads it.
if exists("b:current_syntax")
  finish
endif

syntax keyword pdlTodo contained TODO FIXME
syntax match pdlComment "//.*$" contains=pdlTodo
syntax keyword pdlStructure pipe start
syntax keyword pdlType uint
syntax keyword pdlStorage comb delayed advisory lock
syntax keyword pdlLock queue bypass rename
syntax keyword pdlConditional if else
syntax keyword pdlThread call spec_call verify update spec_check spec_barrier
syntax keyword pdlAccess reserve acquire block release
syntax keyword pdlMode R W
syntax keyword pdlFunction cat zext sext lts
syntax match pdlNumber "\<\d\{1,10}\>"
syntax match pdlNumber "\<\d\{1,10}'d\d\{1,39}\>"
syntax match pdlNumber "\<\d\{1,10}'h[0-9a-f]\{1,32}\>"
syntax match pdlStage "---"
syntax match pdlArrow "<-"

highlight default link pdlTodo Todo
highlight default link pdlComment Comment
highlight default link pdlStructure Structure
highlight default link pdlType Type
highlight default link pdlStorage StorageClass
highlight default link pdlLock StorageClass
highlight default link pdlConditional Conditional
highlight default link pdlThread Statement
highlight default link pdlAccess Statement
highlight default link pdlMode Constant
highlight default link pdlFunction Function
highlight default link pdlNumber Number
highlight default link pdlStage PreProc
highlight default link pdlArrow Operator

let b:current_syntax = "pdl"
