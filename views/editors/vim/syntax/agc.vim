" Sources of the Apollo Guidance Computer, as agcws takes them: a label or none, an operator, and its operand and offset.
if exists("b:current_syntax")
    finish
endif

" The operators of each group, by the tables of the manual; none where python3 or the manual is not there, and then no word is marked as unknown.
if !exists("g:agc_operators")
    try
        let g:agc_operators = json_decode(system("python3 " . shellescape(expand("<sfile>:p:h:h:h:h") . "/manual.py")))
    catch
        let g:agc_operators = {}
    endtry
endif

syntax case match
syntax match agcLabel /^[^ \t#]\+/ nextgroup=agcBlank,agcComment
syntax match agcBlank /[ \t]\+/ contained nextgroup=agcDirective,agcConstant,agcInstruction,agcExtracode,agcUnknown,agcComment
syntax match agcFirst /^\ze[ \t]/ nextgroup=agcBlank
syntax match agcUnknown /[^ \t#]\+/ contained nextgroup=agcOperands
for s:group in keys(g:agc_operators)
    execute 'syntax match agc' . toupper(s:group[0]) . s:group[1:] . ' /\%(' . join(g:agc_operators[s:group], '\|') . '\)\ze\%([ \t#]\|$\)/ contained nextgroup=agcOperands'
endfor
syntax match agcOperands /[^#]\+/ contained contains=agcNumber nextgroup=agcComment
syntax match agcNumber /[ \t]\@1<=[+-]\?\d*\.\?\d\+D\?\ze\%([ \t#]\|$\)/ contained
syntax match agcComment /#.*/

highlight default link agcLabel Identifier
highlight default link agcDirective PreProc
highlight default link agcConstant Type
highlight default link agcInstruction Statement
highlight default link agcExtracode Keyword
if !empty(g:agc_operators)
    highlight default link agcUnknown Error
endif
highlight default link agcNumber Number
highlight default link agcComment Comment

let b:current_syntax = "agc"
