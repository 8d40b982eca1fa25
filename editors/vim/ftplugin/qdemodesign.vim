" Vim settings of qdemo, design. Made by tools/editors.
if exists('b:did_ftplugin')
  finish
endif
let b:did_ftplugin = 1
setlocal comments=:# commentstring=#\ %s iskeyword=@,48-57,_,-,. expandtab shiftwidth=2
let b:undo_ftplugin = 'setlocal comments< commentstring< iskeyword< expandtab< shiftwidth<'
