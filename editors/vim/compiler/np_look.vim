" `:make` asks np_look why np refuses the source, and jumps to FILE:LINE:COLUMN. np_look has to be on the path, or its file in g:np_look.
if exists('current_compiler')
  finish
endif
let current_compiler = 'np_look'
execute 'CompilerSet makeprg=' .. escape(get(g:, 'np_look', 'np_look') .. ' why %:p:S', ' \|"')
" First the place, with what np writes; then the line, its mark and what is wrong there, what was wanted, and how to go on.
let s:lines = ['%E%f:%l:%c: %m', '%C%*[0-9] | %.%#', '%C%*[ ]| %*[ ]^%*[^] %m', '%Cwanted: %m', '%Cnext: %m', '%C%.%#', '%-G%.%#']
let s:lines[2] = '%C%*[ ]|%*[ ]%*[~^] %m'
execute 'CompilerSet errorformat=' .. escape(join(s:lines, ','), ' \|"')
