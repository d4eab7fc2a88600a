" Vim syntax file for UACalc scripts (*.ua). Put it into ~/.vim/syntax, and into ~/.vim/ftdetect/uacalc.vim the line
"   autocmd BufRead,BufNewFile *.ua setfiletype uacalc

if exists("b:current_syntax")
  finish
endif

syntax keyword uacalcBlock version algebra size names op end
syntax keyword uacalcCommand close member free sub ones hom eval holds cg con central comm series types cond nu
syntax keyword uacalcCommand jonsson hm day condition clone make cert check
syntax keyword uacalcChoice least count derived lower maltsev majority minority pixley
syntax keyword uacalcChoice term polynomial total partial product quotient reduct
syntax match uacalcVariable /\<x\d\+\>/
syntax match uacalcNumber /\<\(0\|[1-9]\d\{0,8}\)\>/
syntax match uacalcMark /[][(),=|]/
syntax match uacalcCertificate /{.*$/
syntax match uacalcComment /#.*$/

highlight default link uacalcBlock Structure
highlight default link uacalcCommand Statement
highlight default link uacalcChoice Keyword
highlight default link uacalcVariable Identifier
highlight default link uacalcNumber Number
highlight default link uacalcMark Delimiter
highlight default link uacalcCertificate String
highlight default link uacalcComment Comment

let b:current_syntax = "uacalc"
