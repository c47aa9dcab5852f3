" Vim syntax of a report of lardsim: docs/REPORT.md. The event of a step stands out from its records.
if exists('b:current_syntax')
  finish
endif
syntax case match

syntax match lardHead /^report .*$/
syntax match lardFile /^file\ze / nextgroup=lardWords
syntax match lardEvent /^event \d\+ .*$/
syntax match lardInner /^inner .*$/
syntax match lardPacket /^\%(sent\|got\|lost\|injected\)\ze / nextgroup=lardWords
syntax match lardClient /^\%(opened\|wrote\|accepted\|eof\|aborted\)\ze / nextgroup=lardWords
syntax match lardOwner /^\%(took\|gave\)\ze / nextgroup=lardWords
syntax match lardChoice /^\%(waits\|admitted\|released\|assigned\|batchover\|closed\)\ze / nextgroup=lardWords
syntax match lardServed /^\%(served\|reset\|hit\|queued\|read\)\ze / nextgroup=lardWords
syntax match lardOther /^\%(armed\|cleared\|clock\|settled\|unsettled\)\ze / nextgroup=lardWords
syntax match lardWords / .*$/ contained contains=lardPlace,lardPath
syntax match lardPlace / \zs\%(front\|[nc]\d\+\)\ze\%( \|$\)/ contained
syntax match lardPath / \zs\/[!-~]*/ contained

highlight default link lardHead PreProc
highlight default link lardFile Type
highlight default link lardEvent Statement
highlight default link lardInner Statement
highlight default link lardPacket Identifier
highlight default link lardClient Function
highlight default link lardOwner Special
highlight default link lardChoice Keyword
highlight default link lardServed Function
highlight default link lardOther Comment
highlight default link lardPlace Type
highlight default link lardPath String

let b:current_syntax = 'lardreport'
