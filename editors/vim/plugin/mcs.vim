" Finds system texts of mcs also where this folder came onto the runtime path after `filetype on` or `syntax on`,
" which read what stands in ftdetect/ when they are met.

augroup mcsFiletype
  autocmd!
  autocmd BufNewFile,BufRead *.mcs if &filetype !=# 'mcs' | set filetype=mcs | endif
augroup END
