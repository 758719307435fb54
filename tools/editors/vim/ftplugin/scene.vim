" settings for files of the scene language
if exists('b:did_ftplugin')
  finish
endif
let b:did_ftplugin = 1

setlocal commentstring=#\ %s comments=:# nowrap synmaxcol=400
let b:undo_ftplugin = 'setlocal commentstring< comments< wrap< synmaxcol<'
