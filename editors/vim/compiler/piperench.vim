" Vim compiler file: with `:make`, pipelens looks at a program of piperench. `:make --narrow` passes an option on.
if exists("current_compiler")
  finish
endif
let current_compiler = "piperench"

let s:saved_cpo = &cpo
set cpo&vim

CompilerSet makeprg=pipelens\ why\ %:S\ $*

" A finding is its place with a note, the line of the program with marks under a token, and lines that explain it:
"   filter.dil:2:16: scope: rule 2 item 1
"     2 | output y = x + z;
"       |                ^
"   `z` is used before it is assigned.
CompilerSet errorformat=
      \%-Gaccepted,
      \%W%f:%l:%c:\ warning:\ %m,
      \%E%f:%l:%c:\ %m,
      \%-C\ %#%\\d%#\ \|\ %.%#,
      \%-G,
      \%C%m

let &cpo = s:saved_cpo
unlet s:saved_cpo
