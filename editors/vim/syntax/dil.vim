" Vim syntax file for the stream language of piperench.
if exists("b:current_syntax")
  finish
endif

" What is no token: other bytes, and digits with a letter right behind them.
syntax match dilBad "[^A-Za-z0-9_ \t;,(){}\[\]]"
syntax match dilBad "\<\d\w*"
syntax match dilNumber "\<\d\+\>\|\<0x\x\+\>"
syntax match dilOperator "<<\|>>\|==\|!=\|<=\|>=\|\.\.\|[?+*/%&|^~<>=@:-]"
syntax match dilComment "//.*$" contains=@Spell

syntax keyword dilDeclare input output const fn let rec
syntax keyword dilStatement return by
syntax keyword dilRepeat for in
syntax keyword dilBuiltin cat signed

highlight default link dilBad Error
highlight default link dilNumber Number
highlight default link dilOperator Operator
highlight default link dilComment Comment
highlight default link dilDeclare Keyword
highlight default link dilStatement Statement
highlight default link dilRepeat Repeat
highlight default link dilBuiltin Function

let b:current_syntax = "dil"
