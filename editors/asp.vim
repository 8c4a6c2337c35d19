" Vim syntax file for asp. It lies in ~/.vim/syntax/asp.vim; README.md says how it is used.
if exists("b:current_syntax")
  finish
endif

syntax case match

syntax keyword aspControl let in if else repeat
syntax keyword aspService active serve pending
syntax keyword aspBuiltin clone print echo group scatter size member waitall

syntax match aspNumber "\<\d\+"
syntax match aspSign ":=\|==\|[-+*%<=]\|/"
syntax match aspLabel "\.\s*\zs[A-Za-z_][A-Za-z_0-9]*"
syntax match aspHead "\%(^\|[;,]\)\s*\zs[A-Za-z_][A-Za-z_0-9]*\ze\s*([A-Za-z_0-9, ]*)\s*=\%([^=]\|$\)"
syntax region aspText start=+"+ end=+"+ oneline
syntax match aspComment "//.*$" contains=aspTodo,@Spell
syntax keyword aspTodo TODO FIXME contained

highlight default link aspControl Keyword
highlight default link aspService Statement
highlight default link aspBuiltin Function
highlight default link aspNumber Number
highlight default link aspSign Operator
highlight default link aspLabel Identifier
highlight default link aspHead Function
highlight default link aspText String
highlight default link aspComment Comment
highlight default link aspTodo Todo

let b:current_syntax = "asp"
