" Syntax of idc's language (docs/LANGUAGE.md, "Tokens").
if exists("b:current_syntax")
  finish
endif

syntax case match

syntax match   idComment     "%.*$" contains=@Spell
syntax match   idNumber      "\<\d\+\>"
syntax match   idOperator    "[-+*=:]\|==\|<>\|<-\|<=\|>=\|<\|>"
syntax match   idDelimiter   "[(){}\[\],;]"
syntax keyword idDefinition  def
syntax keyword idConditional if then else
syntax keyword idRepeat      while for to do next finally
syntax keyword idStatement   in
syntax keyword idBoolean     true false
syntax keyword idType        int bool
syntax keyword idArray       array
syntax keyword idWord        div rem and or not
syntax match   idProcedure   "\<[A-Za-z_][A-Za-z_0-9]*\>\ze\_s*(" contains=idArray,idWord,idStatement,idConditional,idRepeat

highlight default link idComment     Comment
highlight default link idNumber      Number
highlight default link idOperator    Operator
highlight default link idDelimiter   Delimiter
highlight default link idDefinition  Keyword
highlight default link idConditional Conditional
highlight default link idRepeat      Repeat
highlight default link idStatement   Statement
highlight default link idBoolean     Boolean
highlight default link idType        Type
highlight default link idArray       Type
highlight default link idWord        Operator
highlight default link idProcedure   Function

let b:current_syntax = "id"
