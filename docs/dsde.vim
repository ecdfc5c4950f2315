" Vim's syntax file for dsde models, written by docs/listings from the reserved words of crates/dsde_words.
" Copy it to ~/.vim/syntax/dsde.vim, and add a line to ~/.vim/filetype.vim:
"   autocmd BufNewFile,BufRead *.dsde setfiletype dsde
if exists("b:current_syntax")
  finish
endif
syntax keyword dsdeDeclaration enum record fn atomic network top
syntax keyword dsdeSection exec in out state advance output internal external confluent structure
syntax keyword dsdeItem comp link via is net
syntax keyword dsdeStatement let var send return for if else
syntax keyword dsdeOperator and or not new
syntax keyword dsdeBuiltin some len range push put take skip min max is_some
syntax keyword dsdeConstant true false none empty elapsed
syntax keyword dsdeType int bool list opt
syntax match dsdeNumber "\<\d\+\>"
syntax match dsdeVariant "\<\h\w*::\h\w*"
syntax match dsdeComment "#.*"
highlight default link dsdeDeclaration Structure
highlight default link dsdeSection Label
highlight default link dsdeItem Keyword
highlight default link dsdeStatement Statement
highlight default link dsdeOperator Operator
highlight default link dsdeBuiltin Function
highlight default link dsdeConstant Constant
highlight default link dsdeType Type
highlight default link dsdeNumber Number
highlight default link dsdeVariant Constant
highlight default link dsdeComment Comment
let b:current_syntax = "dsde"
