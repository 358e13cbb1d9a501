" Vim syntax file
" Language: system texts of mcs (multi-context systems)

if exists('b:current_syntax')
  finish
endif

syn case match
syn iskeyword @,48-57,_
syn sync minlines=100

" Whatever nothing below takes begins no token, or is a number where none may stand.
syn match   mcsStray       /[^ \t\r]/

syn match   mcsName        /\<[A-Za-z_][A-Za-z0-9_]*\>/
syn keyword mcsDeclare     context nextgroup=mcsContextName skipwhite skipempty
syn keyword mcsKind        classical default program
syn keyword mcsLogic       not if
syn keyword mcsConstant    true false
syn keyword mcsReserved    autoepistemic know
syn keyword mcsVersion     version nextgroup=mcsNumber skipwhite skipempty
syn keyword mcsMark        keep closed
syn keyword mcsMark        weight nextgroup=mcsNumber skipwhite skipempty
syn match   mcsNumber      /[1-9][0-9]*/ contained
syn match   mcsLongName    /\<[A-Za-z_][A-Za-z0-9_]\{64,}\>/
syn match   mcsOperator    /<->\|->\|:-\|[&|~\/:]/
syn match   mcsDelimiter   /[{}().,]/
syn match   mcsComment     /#.*$/ contains=mcsTodo,@Spell
syn keyword mcsTodo        TODO FIXME NOTE contained

" A context's name stands after `context`, and in a bridge rule before a belief; the name of a rule after `bridge`.
syn match   mcsContextName /\<[A-Za-z_][A-Za-z0-9_]*\>/ contained
syn match   mcsPlace       /\<[A-Za-z_][A-Za-z0-9_]*\>\ze\_s*:/ contained
syn match   mcsRuleName    /\%(\<bridge\_s\+\)\@<=\<[A-Za-z_][A-Za-z0-9_]*\>/ contained
syn cluster mcsToken       contains=mcsStray,mcsName,mcsKind,mcsLogic,mcsConstant,mcsReserved,mcsMark,mcsOperator,mcsDelimiter,mcsComment
syn region  mcsBridge      matchgroup=mcsDeclare start=/\<bridge\>/ end=/\ze\<\%(bridge\|context\)\>/
      \ matchgroup=mcsDelimiter end=/\./ contains=@mcsToken,mcsPlace,mcsRuleName,mcsLongPlace
syn match   mcsLongPlace   /\<[A-Za-z_][A-Za-z0-9_]\{64,}\>/ contained

hi def link mcsStray       Error
hi def link mcsContextName Identifier
hi def link mcsPlace       Identifier
hi def link mcsRuleName    Function
hi def link mcsDeclare     Statement
hi def link mcsKind        Type
hi def link mcsLogic       Conditional
hi def link mcsConstant    Boolean
hi def link mcsReserved    Error
hi def link mcsVersion     PreProc
hi def link mcsMark        StorageClass
hi def link mcsNumber      Number
hi def link mcsLongName    Error
hi def link mcsLongPlace   Error
hi def link mcsOperator    Operator
hi def link mcsDelimiter   Delimiter
hi def link mcsComment     Comment
hi def link mcsTodo        Todo

let b:current_syntax = 'mcs'
