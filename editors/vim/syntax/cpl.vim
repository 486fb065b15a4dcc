" Highlighting of CPL, the language of the program kleisli. Its tokens are those of docs/LANGUAGE.md.
" Where two rules match at one place, the later one counts.
if exists('b:current_syntax')
  finish
endif

syntax case match

" what begins no token
syntax match cplWrong "\S"

syntax match cplWord "\a\w*"
syntax match cplNumber "\d\+"
syntax match cplAny "_"
syntax match cplOperator "[-+*^=>|:]\|++\|<=\|>=\|<>\|<-\|==\|=>"
syntax match cplDelimiter "[,;]"

syntax match cplConditional "\%(if\|then\|else\|case\|of\|otherwise\|end\)\w\@!"
syntax match cplStatement "\%(let\|in\)\w\@!"
syntax match cplLogical "\%(and\|or\|not\)\w\@!"
syntax match cplBoolean "\%(true\|false\)\w\@!"
syntax match cplDefine "define\w\@!" nextgroup=cplName skipwhite skipempty
syntax match cplName contained "\a\w*"

" A primitive is one where it is called; elsewhere its name may be that of a variable.
syntax match cplPrimitive "\%(bagof\|count\|endswith\|flatten\|greatest\|isempty\|least\|listof\|member\|neg\|setof\|startswith\|strlen\|sum\|take\|toint\|totext\)\ze\_s*("

" A label may be any word, keywords too: behind a dot, and before the `=` of a variant or of a record's field.
syntax match cplDot "\." nextgroup=cplLabel skipwhite skipempty
syntax match cplDots "\.\.\."
syntax match cplLabel contained "\a\w*"
syntax match cplLess "<\%([-=>]\)\@!" nextgroup=cplCase skipwhite skipempty
syntax match cplCase contained "\a\w*\ze\_s*=[=>]\@!"
syntax match cplField contained "\%([[,]\_s*\)\@<=\a\w*\ze\_s*=[=>]\@!"

syntax match cplBinder "\\\_s*\a\w*"

syntax cluster cplParts contains=cplWrong,cplWord,cplNumber,cplAny,cplOperator,cplDelimiter,cplConditional,cplStatement,cplLogical,cplBoolean,cplDefine,cplPrimitive,cplDot,cplDots,cplLess,cplBinder,cplParen,cplRecord,cplList,cplSet,cplBag,cplText,cplComment
syntax region cplParen matchgroup=cplDelimiter start="(" end=")" contains=@cplParts
syntax region cplRecord matchgroup=cplDelimiter start="\[" end="\]" contains=@cplParts,cplField
syntax region cplList matchgroup=cplDelimiter start="\[|" end="|\]" contains=@cplParts
syntax region cplSet matchgroup=cplDelimiter start="{" end="}" contains=@cplParts
syntax region cplBag matchgroup=cplDelimiter start="{|" end="|}" contains=@cplParts

syntax region cplText start=+"+ skip=+\\\\\|\\"+ end=+"+ contains=cplTextWrong,cplEscape
syntax match cplTextWrong contained "\\."
syntax match cplEscape contained "\\\%(["\\nrt]\|x\x\x\)"
syntax match cplComment "#.*" contains=@Spell

" Brackets and texts may hold many lines.
syntax sync fromstart

highlight default link cplWrong Error
highlight default link cplNumber Number
highlight default link cplAny Special
highlight default link cplOperator Operator
highlight default link cplLess Operator
highlight default link cplDots Operator
highlight default link cplDot Delimiter
highlight default link cplDelimiter Delimiter
highlight default link cplConditional Conditional
highlight default link cplStatement Statement
highlight default link cplLogical Operator
highlight default link cplBoolean Boolean
highlight default link cplDefine Statement
highlight default link cplName Function
highlight default link cplPrimitive Function
highlight default link cplLabel Label
highlight default link cplCase Label
highlight default link cplField Label
highlight default link cplBinder Identifier
highlight default link cplText String
highlight default link cplTextWrong Error
highlight default link cplEscape SpecialChar
highlight default link cplComment Comment

let b:current_syntax = 'cpl'
