" Vim syntax file for domains of dec, a reasoner for the discrete event calculus.
if exists("b:current_syntax")
  finish
endif

syntax case match
syntax sync minlines=50

" A name in lower case is a sort or a variable, one in upper case a constant, an event, a fluent or a predicate.
syntax match decVariable "\<\l\w*\>"
syntax match decName "\<\u\w*\>"
syntax match decNumber "\<\d\+\>"
syntax match decOperator "<->\|->\|<=\|>=\|!=\|[!&|=<>+*-]"
syntax match decQuantifier "[][{}]"

syntax keyword decBuiltin HoldsAt ReleasedAt Happens Initiates Terminates Releases

syntax match decLabel "^\s*\zs\u\w*\ze\s*:"
syntax match decStatement "^\s*\zs\%(sort\|reified\|event\|fluent\|noninertial\|predicate\|range\|completion\)\>"
syntax match decRefused "^\s*\zs\%(xor\|mutex\|ignore\|function\)\>"
syntax match decInclude "^\s*\zs\%(load\|option\)\>"
syntax match decText "\%(^\s*\%(load\|option\)\s\+\)\@<=\S[^;]*"

syntax match decComment ";.*$" contains=@Spell,decTodo
syntax keyword decTodo TODO FIXME XXX contained

highlight default link decVariable Identifier
highlight default link decName Type
highlight default link decNumber Number
highlight default link decOperator Operator
highlight default link decQuantifier Special
highlight default link decBuiltin Function
highlight default link decLabel Label
highlight default link decStatement Statement
highlight default link decRefused Error
highlight default link decInclude PreProc
highlight default link decText String
highlight default link decComment Comment
highlight default link decTodo Todo

let b:current_syntax = "dec"
