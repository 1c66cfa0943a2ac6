" Vim compiler file of Kernel Oz: runs the text, and jumps to the places that are named.
" Use: copy it to ~/.vim/compiler/oz.vim, and put into ~/.vimrc
"     autocmd FileType oz compiler oz | nnoremap <buffer> <F5> :w<CR>:make<CR>
" F5 runs the text then, :copen shows what it printed, and :cnext goes to the next fault. Where oz is not on the path:
"     let g:oz_command = '/path/to/oz'
if exists("current_compiler")
  finish
endif
let current_compiler = "oz"

let s:save = &cpo
set cpo&vim
let s:command = escape(get(g:, "oz_command", "oz"), ' \|"')
execute "CompilerSet makeprg=" . s:command . "\\ --hints\\ %:S"
" A place with what is wrong; all other lines stay in the list as they are.
CompilerSet errorformat=%f:%l:%c:\ %m
let &cpo = s:save
