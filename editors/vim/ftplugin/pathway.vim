" Vim filetype plugin file
" Language: decks of pathway
if exists('b:did_ftplugin')
  finish
endif
let b:did_ftplugin = 1

" A comment begins with an asterisk in the first column, in commands and in programs. Elsewhere there is none.
setlocal commentstring=*\ %s
setlocal comments=
" A tab is refused, and no line may be cut: records and entries are one line each.
setlocal expandtab
setlocal textwidth=0
setlocal formatoptions-=t
" A word has hyphens, and $RECEIVE is one.
setlocal iskeyword=@,48-57,-,$

let b:undo_ftplugin = 'setlocal commentstring< comments< expandtab< textwidth< formatoptions< iskeyword<'
