" Settings for databases, queries and edits of Fizhedul.
if exists('b:did_ftplugin')
  finish
endif
let b:did_ftplugin = 1

setlocal commentstring=#\ %s comments=:# formatoptions-=t
let b:undo_ftplugin = 'setlocal commentstring< comments< formatoptions<'

" :make looks through a database, and goes to the place of its fault; what it holds that is seldom meant is told, too.
" Without civil values civil=yes changes nothing. A query is looked through and explained over the database that
" b:fizhedul_database or g:fizhedul_database names, else over the first one beside it.
function! s:database() abort
  let l:beside = glob(expand('%:p:h') . '/*.lrp', 1, 1)
  return get(b:, 'fizhedul_database', get(g:, 'fizhedul_database', get(l:beside, 0, '')))
endfunction

let s:ending = expand('%:e')
if s:ending ==# 'lrp'
  setlocal makeprg=fizhedul\ lint\ db=%:S\ civil=yes
elseif s:ending ==# 'lrq' && s:database() !=# ''
  let s:words = ' db=' . escape(shellescape(s:database()), '%#') . ' query=%:S tense=yes civil=yes'
  " What begins with a definition is in the wide language, which lint doesn't read.
  let s:is_wide = search('^\s*define\s', 'nw') > 0
  let &l:makeprg = s:is_wide ? 'fizhedul explain' . s:words . ' wide=yes' : '(fizhedul lint' . s:words . ' && fizhedul explain' . s:words . ')'
endif
if s:ending ==# 'lrp' || s:ending ==# 'lrq'
  " A fault of the other file is told, and has no place here.
  let s:which = s:ending ==# 'lrp' ? 'database' : 'query'
  let &l:errorformat = 'refused: ' . s:which . ' %m at %l:%c,' . s:which . ' %m at %l:%c'
  let b:undo_ftplugin .= ' makeprg< errorformat<'
endif
