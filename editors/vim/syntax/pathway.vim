" Vim syntax file
" Language: decks of pathway (docs/reference/DECK.md, docs/reference/LANGUAGE.md)
"
" A section goes up to the next line that begins with `?`. What the language refuses by its form has no colour, and
" neither has a name where it is used. Groups that begin with pathwayIn have no colour: they say where a line stands.
" What stands behind a `_` in the name of a group tells it from others of its colour.
if exists('b:current_syntax')
  finish
endif
let s:kept_cpo = &cpo
set cpo&vim

syn case match
syn sync fromstart

" The words of both languages, by their colours. tests/parts/editors compares them with the tables of the program.
let s:common = {
      \ 'Verb': 'ACCEPT ABORT-TRANSACTION ADD BEGIN-TRANSACTION CALL DELETE DISPLAY DIVIDE END-TRANSACTION EXIT IF MOVE MULTIPLY'
      \   .. ' PERFORM READ RESTART-TRANSACTION REWRITE SEND STOP SUBTRACT WRITE',
      \ 'Branch': 'ELSE END-IF THEN',
      \ 'WordOperator': 'AND OR NOT IS NUMERIC EQUAL GREATER LESS THAN',
      \ 'Phrase': 'TO FROM BY INTO GIVING ON SIZE ERROR TIMES UNTIL ONE OF DEPENDING PROGRAM RUN',
      \ 'Figurative': 'SPACE SPACES ZERO ZEROS ZEROES',
      \ 'Filler': 'FILLER',
      \ 'Clause': 'PIC PICTURE VALUE OCCURS',
      \ 'Heading': 'DIVISION SECTION',
      \ }
" The words that each of them has besides.
let s:own = {
      \ 'requester': {
      \   'Phrase': 'BASE AT USING REPLY CODE YIELDS',
      \   'Register': 'TERMINATION-STATUS RESTART-COUNTER',
      \ },
      \ 'server': {
      \   'Phrase': 'NEXT KEY AFTER WITH LOCK',
      \   'Register': 'FILE-STATUS',
      \   'Receive': '$RECEIVE',
      \ },
      \ }

" The older of the two engines, which is much faster where a name or one of many words is looked for.
let s:old = '\%#=1'
" No word goes on here.
let s:end = '[A-Za-z0-9-]\@!'
let s:name = '[A-Za-z][A-Za-z0-9-]\{0,29}'
let s:gap = '[ ,;|]\+'
let s:number = '\%(0\|[1-9]\d*\)'
let s:counted = '[1-9]\d*'
let s:key = 'S\=F\%(1[0-6]\|[1-9]\)'

" One of some words.
function! s:Any(words) abort
  return '\%(' .. substitute(a:words, ' ', '\\|', 'g') .. '\)'
endfunction

" ---- Sections of lines

let s:lines = 0

" A line of some words, each with its group and its pattern. It has its colours where the whole line is of this form.
function! s:Line(where, form, words) abort
  let s:lines += 1
  let l:patterns = map(copy(a:words), 'v:val[1]')
  for l:at in range(len(a:words))
    let l:group = printf('pathway%s_%d_%d', a:words[l:at][0], s:lines, l:at)
    let l:pattern = s:old .. a:form.case .. l:patterns[l:at]
    if l:at == 0
      let l:behind = join(map(l:patterns[1:], 'a:form.gap .. v:val'), '') .. a:form.tail
      let l:pattern = s:old .. a:form.case .. a:form.lead .. l:patterns[0] .. '\ze' .. l:behind
      execute 'syn cluster' a:where 'add=' .. l:group
    endif
    let l:next = l:at + 1 < len(a:words)
          \ ? printf('nextgroup=pathway%s_%d_%d skipwhite', a:words[l:at + 1][0], s:lines, l:at + 1) : ''
    execute 'syn match' l:group '/' .. l:pattern .. '/ contained' l:next
    if a:words[l:at][0] !=# 'In'
      execute 'hi def link' l:group 'pathway' .. a:words[l:at][0]
    endif
  endfor
endfunction

" Words in either case with any number of spaces between them; those of commands may have some in front.
let s:heading = {'case': '\c', 'lead': '^', 'gap': ' \+', 'tail': ' *$'}
let s:command = {'case': '\c', 'lead': '^ *\zs', 'gap': ' \+', 'tail': ' *$'}
" Words in upper case with single spaces between them.
let s:strict = {'case': '\C', 'lead': '^', 'gap': ' ', 'tail': '$'}

for s:word in ['PATHCOM', 'FAIL', 'LOG']
  call s:Line('pathwayHeadings', s:heading, [['Section', '?' .. s:word]])
endfor
for s:word in ['SCREEN-COBOL', 'SERVER', 'ENTRIES']
  call s:Line('pathwayHeadings', s:heading, [['Section', '?' .. s:word], ['SectionName', s:name]])
endfor
call s:Line('pathwayHeadings', s:heading,
      \ [['Section', '?FILE'], ['SectionName', s:name], ['Section', 'KEY'], ['Number', '\d\{1,9}']])

" A section begins with a line of this form, which is a part of it, and goes up to the next one.
function! s:Section(group, line, contains) abort
  execute 'syn region' a:group 'start=/\c^' .. a:line .. ' *$/ end=/^?\@=/ keepend contains=@pathwayHeadings,' .. a:contains
endfunction

" Commands.
let s:object = s:Any('TCP TERM SERVER')
call s:Line('pathwayCommands', s:command, [['Command', 'ADD'], ['Object', s:object], ['ObjectName', s:name]])
call s:Line('pathwayCommands', s:command, [['Command', 'START'], ['Object', s:object], ['In', s:name]])
call s:Line('pathwayCommands', s:command,
      \ [['Command', 'SET'], ['Object', 'TERM'], ['Attribute', s:Any('TCP INITIAL')], ['In', s:name]])
call s:Line('pathwayCommands', s:command,
      \ [['Command', 'SET'], ['Object', 'TERM'], ['Attribute', 'MAXTMFRESTARTS'], ['Number', '\d\{1,9}']])
call s:Line('pathwayCommands', s:command,
      \ [['Command', 'SET'], ['Object', 'SERVER'], ['Attribute', 'PROGRAM'], ['In', s:name]])
call s:Line('pathwayCommands', s:command,
      \ [['Command', 'SET'], ['Object', 'SERVER'], ['Attribute', 'MAXSERVERS'], ['Number', '\d\{1,9}']])
call s:Section('pathwayInPathcom', '?PATHCOM', '@pathwayCommands,pathwayComment')

" Records: each line that is not blank, also one that begins with an asterisk.
call s:Section('pathwayInFile', '?FILE \+' .. s:name .. ' \+KEY \+\d\{1,9}', 'pathwayRecord')
syn match pathwayRecord /^?\@! *[^ ].*/ contained

" Entries: a key, and pairs behind single spaces.
call s:Section('pathwayInEntries', '?ENTRIES \+' .. s:name, 'pathwayKey')
let s:value = '\%("\%([ !#-~]\|""\)*"\|[!#-~]*\)\%( \|$\)\@='
execute 'syn match pathwayKey /' .. s:old .. '\C^' .. s:key .. '\ze\%( ' .. s:name .. '=' .. s:value .. '\)*$/ contained'
      \ 'nextgroup=pathwayField skipwhite'
execute 'syn match pathwayField /' .. s:old .. s:name .. '\ze=/ contained nextgroup=pathwayAssignment'
syn match pathwayAssignment /=/ contained nextgroup=pathwayValue,pathwayString_value
syn match pathwayAssignment /=\%( \|$\)\@=/ contained nextgroup=pathwayField skipwhite
syn match pathwayValue /[!#-~]\+/ contained nextgroup=pathwayField skipwhite
syn region pathwayString_value matchgroup=pathwayString start=/"/ skip=/""/ end=/"/ contained contains=pathwayEscape
      \ nextgroup=pathwayField skipwhite

" Failure lines.
let s:member = s:Any('PRIMARY BACKUP')
call s:Line('pathwayFailures', s:strict,
      \ [['Failure', 'TCP'], ['In', s:name], ['Failure', s:member], ['Failure', 'AFTER'], ['Number', s:number]])
call s:Line('pathwayFailures', s:strict,
      \ [['Failure', 'SERVER'], ['In', s:name], ['Number', s:counted], ['Failure', 'AFTER'], ['Number', s:number]])
call s:Section('pathwayInFail', '?FAIL', '@pathwayFailures')

" The log. Where its first line that is not blank is the header, FILE lines have a mode; else they have none.
let s:entry = ['Entry', s:counted]
let s:unit = [['In', s:name], ['Number', s:number]]
let s:process = [['In', s:name], ['Number', s:counted]]
let s:causes = [
      \ [['Log', 'OLDER']] + s:unit,
      \ [['Log', 'TAKEOVER'], ['In', s:name]],
      \ [['Log', 'SERVER'], ['Number', s:counted]],
      \ [['Log', 'REDO']],
      \ ]
let s:endings = [[['Log', s:Any('STOPPED NOENTRIES LOST')]], [['Log', 'FAULT'], ['Number', s:number]]]
      \ + map(copy(s:causes), '[["Log", "SUSPENDED"]] + v:val')
let s:events = [
      \ [['Log', 'SHOW'], ['In', s:name], ['Refresh', join([s:number, s:number, s:number], '\.')]],
      \ [['Log', s:Any('KEY AGAIN COMMIT BACK')]] + s:unit,
      \ [['Log', 'CHECK'], ['In', s:name], ['Log', s:Any('START END COPY')]],
      \ [['Log', s:Any('APPLIED TAKEOVER RAISE')], ['In', s:name]],
      \ [['Log', 'BEGIN']] + s:unit + [['Number', s:number]],
      \ [['Log', 'SEND']] + s:unit + [['In', s:name]],
      \ [['Log', 'TAKE']] + s:process + [['In', s:name]],
      \ [['Log', 'REPLY']] + s:process + [['In', s:name], ['Log', 'OK']],
      \ [['Log', 'REPLY']] + s:process + [['In', s:name], ['Log', 'FAULT'], ['Number', s:number]],
      \ [['Log', 'FAIL'], ['Log', 'TCP'], ['In', s:name], ['Log', s:member], ['Number', s:counted]],
      \ [['Log', 'FAIL'], ['Log', 'SERVER']] + s:process + [['Number', s:counted]],
      \ ]
      \ + map(copy(s:causes), '[["Log", "RESTART"]] + s:unit + v:val')
      \ + map(copy(s:endings), '[["Log", "END"], ["In", s:name]] + v:val')
for s:event in s:events
  call s:Line('pathwayEvents', s:strict, [s:entry] + s:event)
endfor
let s:operation = ['Log', s:Any('READ NEXT WRITE REWRITE DELETE')]
call s:Line('pathwayFileEvents_1', s:strict,
      \ [s:entry, ['Log', 'FILE']] + s:process + [s:operation] + s:unit)
call s:Line('pathwayFileEvents_2', s:strict,
      \ [s:entry, ['Log', 'FILE']] + s:process + [s:operation, ['Log', s:Any('S X')]] + s:unit)
call s:Section('pathwayInLog', '?LOG', 'pathwayInLog_1,pathwayInLog_2')
syn region pathwayInLog_1 start=/^?\@! *[^ ]/ end=/^?\@=/ contained contains=@pathwayEvents,@pathwayFileEvents_1
syn region pathwayInLog_2 matchgroup=pathwayHeader start=/\C^PATHWAY LOG 2$/ matchgroup=NONE end=/^?\@=/ contained
      \ contains=@pathwayEvents,@pathwayFileEvents_2

" Behind the end no section begins any more: the lines are a disc script.
call s:Line('pathwayDiscs', s:strict,
      \ [['Disc', 'DISC'], ['Disc', 'PRIMARY'], ['Disc', s:Any('AFTER HELD')], ['Number', s:number]])
call s:Line('pathwayDiscs', s:strict, [['Disc', 'DISC'], ['Disc', 'BACKUP'], ['Disc', 'AFTER'], ['Number', s:number]])
syn region pathwayInScript matchgroup=pathwaySection start=/\c^?END\ze *$/ matchgroup=NONE end=/\%$/ contains=@pathwayDiscs

" ---- Programs. Of two that begin at one place the later one counts here.

" Tokens. Another word is a name, and is read whole.
execute 'syn match pathwayIn_other /[A-Za-z][A-Za-z0-9-]*\|$\cRECEIVE' .. s:end .. '/ contained'
syn match pathwayNumber /[+-]\=\d\+\%(\.\d\+\)\=/ contained
syn match pathwayOperator /<=\|>=\|[<>=]/ contained
syn match pathwayUnclosed /".*/ contained
syn match pathwayEscape /""/ contained
syn region pathwayString matchgroup=pathwayString start=/"\%(\%([^"]\|""\)*""\@!\)\@=/ skip=/""/ end=/"/ contained
      \ contains=pathwayEscape

" The words of a side, each with a group.
function! s:Words(side, words) abort
  for [l:kind, l:these] in items(a:words)
    let l:group = 'pathway' .. l:kind .. '_' .. a:side
    execute 'syn match' l:group '/' .. s:old .. '\c' .. s:Any(l:these) .. s:end .. '/ contained'
    execute 'hi def link' l:group 'pathway' .. l:kind
    execute 'syn cluster pathwayTokens_' .. a:side 'add=' .. l:group
  endfor
endfunction

" A picture is what stands behind PIC up to a space, on the same line, but for a period at its end.
let s:count = '\%((0*[1-9]\d*)\)\='
let s:nines = '\%(9' .. s:count .. '\)\+'
let s:body = '\%(Z' .. s:count .. '\|,\)*\%(9' .. s:count .. '\|,\)*\%(\.' .. s:nines .. '\)\='
let s:picture = '\%(' .. join([
      \ '\%(X' .. s:count .. '\)\+',
      \ 'S\=' .. s:nines .. '\%(V' .. s:nines .. '\)\=',
      \ 'S\=V' .. s:nines,
      \ '\%([-,]*\.\=[9Z]\)\@=\%(-,\@!' .. s:body .. '\|' .. s:body .. '-\=\)',
      \ ], '\|') .. '\)'
let s:picture_end = '\.\=\%( \|$\)'
execute 'syn match pathwayIn_picture /\%(' .. s:picture_end .. '\)\@!\S\{-1,}\ze' .. s:picture_end .. '/ contained'
execute 'syn match pathwayPicture /' .. s:old .. '\C' .. s:picture .. '\ze' .. s:picture_end .. '/ contained'
execute 'syn match pathwayWordOperator_is /\cIS' .. s:end .. '/ contained nextgroup=pathwayPicture,pathwayIn_picture skipwhite'
hi def link pathwayWordOperator_is pathwayWordOperator

call s:Words('both', s:common)
execute 'syn match pathwayClause_pic /\c' .. s:Any('PICTURE PIC') .. s:end .. '/ contained'
      \ 'nextgroup=pathwayWordOperator_is,pathwayPicture,pathwayIn_picture skipwhite'
hi def link pathwayClause_pic pathwayClause
" The clause is one match, so that a period in its picture ends nothing.
execute 'syn match pathwayIn_clause /' .. s:old .. '\c' .. s:Any('PICTURE PIC') .. s:end .. ' *\%(IS' .. s:end .. ' *\)\='
      \ .. '\S\{-}\ze' .. s:picture_end .. '/ contained contains=pathwayClause_pic'
syn cluster pathwayTokens_both
      \ add=pathwayIn_other,pathwayNumber,pathwayOperator,pathwayUnclosed,pathwayString,pathwayIn_clause

" The headings that programs of both languages have. The text of the environment division says nothing.
let s:division = '\c[A-Z][A-Z0-9-]*' .. s:gap .. 'DIVISION' .. s:end
execute 'syn match pathwayHeading_identification /\cIDENTIFICATION' .. s:gap .. 'DIVISION' .. s:end .. '/ contained'
execute 'syn match pathwayHeading_program /\cPROGRAM-ID' .. s:end .. '/ contained nextgroup=pathwayIn_program skipwhite'
syn match pathwayIn_program /[ ,;|]*\.[ ,;|]*/ contained nextgroup=pathwaySectionName_program
execute 'syn match pathwaySectionName_program /' .. s:name .. s:end .. '/ contained'
hi def link pathwayHeading_identification pathwayHeading
hi def link pathwayHeading_program pathwayHeading
hi def link pathwaySectionName_program pathwaySectionName
execute 'syn region pathwayInEnvironment matchgroup=pathwayHeading start=/\cENVIRONMENT' .. s:gap .. 'DIVISION' .. s:end .. '/'
      \ 'matchgroup=NONE end=/\%(' .. s:division .. '\)\@=/ end=/^?\@=/ contained'
      \ 'contains=pathwayComment,pathwayUnclosed,pathwayIn_quoted'
syn match pathwayIn_quoted /"\%([^"]\|""\)*""\@!/ contained

" The divisions of a side, which has these sections in its data division.
function! s:Programs(side, line, sections, sentences) abort
  call s:Words(a:side, s:own[a:side])
  execute 'syn cluster pathwayTokens_' .. a:side 'add=@pathwayTokens_both,pathwayComment'
  let l:tokens = 'contains=@pathwayTokens_' .. a:side
  let l:table = join(values(s:common) + values(s:own[a:side]))
  let l:free = '\c\%(' .. s:Any(l:table) .. s:end .. '\)\@!' .. s:name .. s:end
  let l:section = '\c' .. s:Any(a:sections) .. s:gap .. 'SECTION' .. s:end
  let l:stop = 'end=/\%(' .. l:section .. '\|' .. s:division .. '\)\@=/ end=/^?\@=/ contained'

  " An entry: its level, then the word that it defines, then clauses, to its period or the next heading. What begins
  " with no level is read over, to its period.
  execute 'syn region pathwayInClauses_' .. a:side 'start=/[^ ,;|.]\@=/ end=/\.\@=/' l:stop l:tokens
  execute 'syn region pathwayInDefined_' .. a:side 'matchgroup=pathwayDefinition start=/' .. s:old .. l:free .. '/'
        \ 'matchgroup=NONE end=/\.\@=/' l:stop l:tokens
  execute 'syn region pathwayInStray_' .. a:side 'start=/[^ ,;|.]\@=/ end=/\./' l:stop l:tokens
  execute 'syn region pathwayInEntry_' .. a:side 'matchgroup=pathwayLevel'
        \ 'start=/0*\%([1-9]\|[1-4]\d\|77\)\%(\d\|\.\d\)\@!/ matchgroup=NONE end=/\./' l:stop
        \ 'contains=pathwayComment,pathwayInClauses_' .. a:side .. ',pathwayInDefined_' .. a:side
  execute 'syn match pathwayHeading_section_' .. a:side '/' .. l:section .. '/ contained'
  execute 'hi def link pathwayHeading_section_' .. a:side 'pathwayHeading'
  execute 'syn region pathwayInData_' .. a:side 'matchgroup=pathwayHeading start=/\cDATA' .. s:gap .. 'DIVISION' .. s:end .. '/'
        \ 'matchgroup=NONE end=/\%(' .. s:division .. '\)\@=/ end=/^?\@=/ contained contains=pathwayComment,pathwayInStray_'
        \ .. a:side .. ',pathwayInEntry_' .. a:side .. ',pathwayHeading_section_' .. a:side

  " The heading of the procedure goes up to its period. Behind it a word with a period is the name of a paragraph, and
  " all else a sentence, to its period.
  execute 'syn region pathwayInSentence_' .. a:side 'start=/[^ ,;|.]\@=/ end=/\./ end=/^?\@=/ contained'
        \ l:tokens .. a:sentences
  execute 'syn match pathwayParagraph_' .. a:side '/' .. s:old .. '\%(' .. s:name .. '[ ,;|]*\.\)\@=' .. l:free .. '/ contained'
  execute 'hi def link pathwayParagraph_' .. a:side 'pathwayParagraph'
  execute 'syn region pathwayInText_' .. a:side 'start=/\./ end=/^?\@=/ contained contains=pathwayComment,pathwayInSentence_'
        \ .. a:side .. ',pathwayParagraph_' .. a:side
  execute 'syn region pathwayInProcedure_' .. a:side 'matchgroup=pathwayHeading start=/\cPROCEDURE' .. s:gap .. 'DIVISION'
        \ .. s:end .. '/ matchgroup=NONE end=/^?\@=/ contained' l:tokens .. ',pathwayInText_' .. a:side

  call s:Section('pathwayInProgram_' .. a:side, a:line .. ' \+' .. s:name,
        \ '@pathwayTokens_' .. a:side .. ',pathwayHeading_identification,pathwayHeading_program,pathwayInEnvironment'
        \ .. ',pathwayInData_' .. a:side .. ',pathwayInProcedure_' .. a:side)
endfunction
call s:Programs('requester', '?SCREEN-COBOL', 'WORKING-STORAGE LINKAGE SCREEN', ',pathwayInAccept')
call s:Programs('server', '?SERVER', 'WORKING-STORAGE', '')

" The words of keys are such behind the UNTIL of an ACCEPT alone, up to the first other word. The UNTIL of a PERFORM in the
" same sentence is another one.
execute 'syn region pathwayInAccept matchgroup=pathwayVerb start=/\cACCEPT' .. s:end .. '/ matchgroup=NONE end=/\.\@=/'
      \ 'end=/\c\%(PERFORM' .. s:end .. '\)\@=/ end=/^?\@=/ contained contains=@pathwayTokens_requester,pathwayInKeys'
execute 'syn region pathwayInKeys matchgroup=pathwayPhrase start=/\cUNTIL' .. s:end .. '/ matchgroup=NONE'
      \ 'end=/\c\%(^\*\|' .. s:key .. s:end .. '\)\@![^ ,;|]\@=/ end=/^?\@=/ contained contains=pathwayComment,pathwayKey_until'
execute 'syn match pathwayKey_until /\c' .. s:key .. s:end .. '/ contained'
hi def link pathwayKey_until pathwayKey
hi def link pathwayString_value pathwayString

syn match pathwayComment /^\*.*/ contained

hi def link pathwayAssignment Operator
hi def link pathwayAttribute Label
hi def link pathwayBranch Conditional
hi def link pathwayClause StorageClass
hi def link pathwayCommand Statement
hi def link pathwayComment Comment
hi def link pathwayDefinition Identifier
hi def link pathwayDisc Statement
hi def link pathwayEntry Number
hi def link pathwayEscape SpecialChar
hi def link pathwayFailure Statement
hi def link pathwayField Identifier
hi def link pathwayFigurative Constant
hi def link pathwayFiller Special
hi def link pathwayHeader PreProc
hi def link pathwayHeading Structure
hi def link pathwayKey Constant
hi def link pathwayLevel Number
hi def link pathwayLog Statement
hi def link pathwayNumber Number
hi def link pathwayObject Type
hi def link pathwayObjectName Identifier
hi def link pathwayOperator Operator
hi def link pathwayParagraph Function
hi def link pathwayPhrase Keyword
hi def link pathwayPicture Type
hi def link pathwayReceive Special
hi def link pathwayRecord String
hi def link pathwayRefresh Number
hi def link pathwayRegister Special
hi def link pathwaySection PreProc
hi def link pathwaySectionName Title
hi def link pathwayString String
hi def link pathwayUnclosed Error
hi def link pathwayValue String
hi def link pathwayVerb Statement
hi def link pathwayWordOperator Operator

let b:current_syntax = 'pathway'
let &cpo = s:kept_cpo
unlet s:kept_cpo
