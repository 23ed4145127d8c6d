" Bmimd's programs for Vim, type and syntax: this file goes into ~/.vim/syntax/, and a copy of it into ~/.vim/ftdetect/
" (extras/install does both).
if expand("<sfile>:p:h:t") ==# "ftdetect"
  autocmd BufNewFile,BufRead *.bm set filetype=bmimd
  finish
endif
if exists("b:current_syntax")
  finish
endif

syntax keyword bmimdDeclaration var array
syntax keyword bmimdStatement print if else while
syntax match bmimdName "\<[A-Za-z_][A-Za-z0-9_]*\>"
syntax match bmimdNumber "\<[0-9]\+\>"
syntax match bmimdOperator "==\|!=\|<=\|>=\|<<\|>>\|[-=|^&<>+*/%~]"
syntax match bmimdComment "#.*$"

highlight default link bmimdDeclaration Type
highlight default link bmimdStatement Statement
highlight default link bmimdName Identifier
highlight default link bmimdNumber Number
highlight default link bmimdOperator Operator
highlight default link bmimdComment Comment

let b:current_syntax = "bmimd"
