" Vim syntax of a schedule of lardsim: docs/SCHEDULE.md. What cannot be seen and is refused is shown as an error: blanks at an
" end of a line, two of them, tabs and carriage returns; and so is a line that begins with no word of the format.
if exists('b:current_syntax')
  finish
endif
syntax case match

syntax match lardFault /^.\+$/
syntax match lardHead /^lard 1$/
syntax match lardHead /^go$/
syntax match lardKey /^\%(nodes\|low\|high\|age\|idle\|over\|miss\|cache\|stream\)\ze / nextgroup=lardWords
syntax match lardFile /^\%(file\|fill\)\ze / nextgroup=lardWords
syntax match lardEvent /^\%(open\|get\|write\|shut\|abort\|hold\|take\|deliver\|lose\|timer\|disk\|drain\|clock\|settle\|inject\)\ze / nextgroup=lardWords
syntax match lardWords / .*$/ contained contains=lardNumber,lardPlace,lardPath,lardBytes,lardBlank
syntax match lardNumber / \zs\d\+\ze\%( \|$\)/ contained
syntax match lardPlace / \zs\%(front\|[nc]\d\+\)\ze\%( \|$\)/ contained
syntax match lardPath / \zs\/[!-~]*/ contained
syntax match lardBytes / \zs\%(\x\x\)\+$/ contained contains=lardNumber
syntax match lardBlank / $\|  \+\|[\t\r]/ contained

highlight default link lardFault Error
highlight default link lardBlank Error
highlight default link lardHead PreProc
highlight default link lardKey Type
highlight default link lardFile Type
highlight default link lardEvent Statement
highlight default link lardNumber Number
highlight default link lardPlace Identifier
highlight default link lardPath String
highlight default link lardBytes Constant

let b:current_syntax = 'lardschedule'
