" Vim syntax file of Kernel Oz, the language of docs/language.md.
" Use: copy it to ~/.vim/syntax/oz.vim, and put into ~/.vimrc
"     autocmd BufNewFile,BufRead *.oz setfiletype oz
if exists("b:current_syntax")
  finish
endif

syntax case match
syntax sync fromstart

" Atoms and variables, and the names that are built in where they stand first in a call.
syntax match ozAtom "\<\l\w*\>"
syntax match ozVariable "\<\u\w*\>"
syntax match ozBuiltIn "{\@1<=\s*\zs\%(Browse\|Wait\|NewCellAt\|NewCell\|Exchange\|NewPort\|Send\)\>"

" An integer: no leading zeros, and ~ before a negative one.
syntax match ozInteger "\~\?\<\d\+\>"
syntax match ozBadInteger "\~\?\<0\d\+\>"

" Reserved words that the language uses, and those that nothing uses.
syntax keyword ozStatement skip local in end proc fun thread at raise
syntax keyword ozConditional if then else case of
syntax keyword ozException try catch finally
syntax keyword ozOperatorWord div mod
syntax keyword ozUnused andthen attr choice class cond declare define dis elsecase elseif export fail feat from
syntax keyword ozUnused functor import lock meth not or orelse prepare prop require self unit

" Signs.
syntax match ozSign "\[\]\|==\|\\=\|[=(){}$:.|+*<>-]"

" A quoted atom with its escapes, and comments: to the end of a line, or nested.
syntax match ozEscape "\\['\\n]" contained
syntax match ozBadEscape "\\[^'\\n]" contained
syntax region ozQuoted start="'" skip="\\." end="'" oneline contains=ozEscape,ozBadEscape
syntax match ozLineComment "%.*$" contains=ozTodo
syntax region ozComment start="/\*" end="\*/" contains=ozComment,ozTodo
syntax keyword ozTodo TODO FIXME contained

highlight default link ozAtom Constant
highlight default link ozVariable Identifier
highlight default link ozBuiltIn Function
highlight default link ozInteger Number
highlight default link ozBadInteger Error
highlight default link ozStatement Statement
highlight default link ozConditional Conditional
highlight default link ozException Exception
highlight default link ozOperatorWord Operator
highlight default link ozUnused Error
highlight default link ozSign Operator
highlight default link ozEscape SpecialChar
highlight default link ozBadEscape Error
highlight default link ozQuoted String
highlight default link ozLineComment Comment
highlight default link ozComment Comment
highlight default link ozTodo Todo

let b:current_syntax = "oz"
