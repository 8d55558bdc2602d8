" Indent of idc's texts, as in examples/*.id.
if exists("b:did_indent")
  finish
endif
let b:did_indent = 1

setlocal indentexpr=IdIndent(v:lnum)
setlocal indentkeys=!^F,o,O,0},=in,=finally,=else,=then
setlocal shiftwidth=2 expandtab
let b:undo_indent = "setlocal indentexpr< indentkeys< shiftwidth< expandtab<"

if exists("*IdIndent")
  finish
endif

" A line without its comment and the blanks at its end.
function s:Code(number)
  return substitute(substitute(getline(a:number), "%.*$", "", ""), '\s\+$', "", "")
endfunction

" The line and column, from 0, of the innermost brace that is open before a line, or [0, 0].
function s:Brace(number)
  let depth = 0
  for number in range(a:number - 1, 1, -1)
    let code = s:Code(number)
    for column in range(strlen(code) - 1, 0, -1)
      let depth += code[column] ==# "}" ? 1 : code[column] ==# "{" ? -1 : 0
      if depth < 0
        return [number, column]
      endif
    endfor
  endfor
  return [0, 0]
endfunction

function IdIndent(number)
  let [opened, column] = s:Brace(a:number)
  let here = substitute(getline(a:number), '^\s*', "", "")
  let last = prevnonblank(a:number - 1)
  while last > 0 && s:Code(last) ==# ""
    let last = prevnonblank(last - 1)
  endwhile
  if opened == 0
    return last > 0 && s:Code(last) !~# ';$' ? indent(last) + 2 : 0
  endif
  let behind = strpart(s:Code(opened), column + 1)
  " what stands behind the brace says where the statements and the last line of the block stand
  if behind =~# '^\s*while\>'
    let [statement, end, close] = [column + 4, column + 2, column]
  elseif behind ==# ""
    let [statement, end, close] = [indent(opened) + 2, indent(opened) + 2, indent(opened)]
  else
    let statement = column + 1 + matchend(behind, '^\s*')
    let [end, close] = [statement, column]
  endif
  if here =~# '^}'
    return close
  elseif here =~# '^\%(in\|finally\)\>'
    return end
  elseif last > opened && s:Code(last) !~# '\%(;\|\<do\|[{}]\)$'
    return statement + 2
  endif
  return statement
endfunction
