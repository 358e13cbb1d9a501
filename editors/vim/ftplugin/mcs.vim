" Vim file type plugin
" Language: system texts of mcs (multi-context systems)

if exists('b:did_ftplugin')
  finish
endif
let b:did_ftplugin = 1

setlocal comments=:#
setlocal commentstring=#\ %s
setlocal formatoptions-=t
setlocal formatoptions+=croql
setlocal errorformat=%f:%l:%c:\ %m,%-G%.%#

" Where this folder stands in its repository, :make goes to the fault of a text.
let s:where = fnamemodify(resolve(expand('<sfile>:p')), ':h:h:h:h') . '/tools/where'
if executable(s:where)
  let &l:makeprg = escape(shellescape(s:where), '%#') . ' %:S'
endif

let b:undo_ftplugin = 'setlocal comments< commentstring< formatoptions< errorformat< makeprg<'
