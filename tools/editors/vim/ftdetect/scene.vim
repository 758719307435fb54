" files of the scene language
autocmd BufNewFile,BufRead *.scene setfiletype scene
