" Which files are scripts and designs of qdemo, by suffix. Made by tools/editors.
" A plain script has no suffix of its own: `:set filetype=qdemoscript`.
autocmd BufRead,BufNewFile *.names setfiletype qdemonames
autocmd BufRead,BufNewFile *.design setfiletype qdemodesign
