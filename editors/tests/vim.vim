" Tries the files for Vim. `editors/check` starts it in an empty folder, with a stand-in for pipelens on the PATH that answers
" with the file `answer` and notes its words in `words`, and perhaps the real one below `real`. What is not as it is to be goes to
" the file `wrong`.
let s:vim = fnamemodify(expand('<sfile>:p:h'), ':h') . '/vim'
execute 'set runtimepath^=' . fnameescape(s:vim)
filetype plugin on
syntax on

" The entries that a `:make` makes of an answer.
function s:make(answer, words)
  call writefile(a:answer, 'answer')
  execute 'silent make' a:words
  return map(getqflist(), '[v:val.valid ? bufname(v:val.bufnr) : "", v:val.lnum, v:val.col, v:val.type, v:val.text]')
endfunction

" The group of the syntax at a place.
function s:colour(line, column)
  return synIDattr(synID(a:line, a:column, 1), 'name')
endfunction

try
  call writefile(['input x:8; // a program', 'output y = x + z;'], 'a program.dil')
  edit a\ program.dil
  call assert_equal('dil', &filetype)
  call assert_equal('piperench', b:current_compiler)
  call assert_equal('// %s', &commentstring)

  let s:refused = [
        \ 'a program.dil:2:16: scope: rule 2 item 1',
        \ '  2 | output y = x + z;',
        \ '    |                ^',
        \ '`z` is used | before it is assigned.',
        \ 'Assign it in an item before this one.',
        \ ]
  let s:told = "scope: rule 2 item 1\n`z` is used | before it is assigned.\nAssign it in an item before this one."
  call assert_equal([['a program.dil', 2, 16, 'E', s:told]], s:make(s:refused, ''))
  call assert_equal([2, 16], [line('.'), col('.')])
  call assert_equal(['why', 'a program.dil'], readfile('words'))

  let s:warned = [
        \ 'accepted',
        \ 'a program.dil:1:7: warning: unneeded',
        \ '  1 | input x:8; // a program',
        \ '    |       ^',
        \ 'No output needs `x`.',
        \ 'a program.dil:2:1: warning: long-delay',
        \ '  2 | output y = x + z;',
        \ '    | ^^^^^^',
        \ 'Only `x@1` is needed.',
        \ ]
  call assert_equal([['a program.dil', 1, 7, 'W', "unneeded\nNo output needs `x`."],
        \ ['a program.dil', 2, 1, 'W', "long-delay\nOnly `x@1` is needed."]], s:make(s:warned, '--fabric wide'))
  call assert_equal([1, 7], [line('.'), col('.')])
  cnext
  call assert_equal([2, 1], [line('.'), col('.')])
  call assert_equal(['why', 'a program.dil', '--fabric', 'wide'], readfile('words'))

  call assert_equal([], s:make(['accepted'], ''))
  " A line that is no finding is shown, and nothing is jumped to.
  call assert_equal([['', 0, 0, '', 'read fault: a program.dil']], s:make(['read fault: a program.dil'], ''))

  " The colours.
  call assert_equal(['dilDeclare', 'dilNumber', 'dilComment'], [s:colour(1, 1), s:colour(1, 9), s:colour(1, 14)])
  call assert_equal(['dilOperator', 'dilOperator'], [s:colour(2, 10), s:colour(2, 14)])

  " The real pipelens finds the same, where it is at hand.
  if filereadable('real/pipelens')
    let s:path = $PATH
    let $PATH = getcwd() . '/real:' . $PATH
    call delete('words')
    let s:found = s:make([], '')
    call assert_equal([1, ['a program.dil', 2, 16, 'E']], [len(s:found), s:found[0][:3]])
    call assert_match("^scope: [^\n]*\n`z` is used before it is assigned\\.\n[^|^]*$", s:found[0][4])
    call assert_equal(0, filereadable('words'))
    let $PATH = s:path
  endif

  " Another file type takes all of it away.
  call assert_notequal(&g:errorformat, &errorformat)
  set filetype=text
  call assert_equal(['make', &g:errorformat, 0], [&makeprg, &errorformat, exists('b:current_compiler')])
catch
  call add(v:errors, v:throwpoint . ': ' . v:exception)
endtry
call writefile(v:errors, 'wrong')
qall!
