" Comments, names with ', and the compiler that asks np_look why a source is refused.
if exists('b:did_ftplugin')
  finish
endif
let b:did_ftplugin = 1
setlocal comments=:-- commentstring=--\ %s iskeyword=@,48-57,_,'
compiler np_look
let b:undo_ftplugin = 'setlocal comments< commentstring< iskeyword< makeprg< errorformat<'
