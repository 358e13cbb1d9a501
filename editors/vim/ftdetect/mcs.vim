" Where `filetype` is on before this folder is on the runtime path, plugin/mcs.vim does the same.
autocmd BufNewFile,BufRead *.mcs setfiletype mcs
