" Vim syntax file for snaplab: listings, schedules, debugger commands and histories, with lines % between parts.
if exists('b:current_syntax')
  finish
endif
syntax case match

syntax match snaplabNumber /\<\d\+\>/
syntax match snaplabOperator /!=\|[=<+*]/
syntax match snaplabPart /^%\r\=$/

" Listings: header lines, the numbers of lines, forms of lines, targets, what a term may name.
syntax match snaplabHeader /^\s*\zs\(kind\|scalar\|row\|words\|view\|scan\|update\)\>/
syntax match snaplabKind /\(^\s*kind\s\+\)\@<=\(seq\|bit\|multi\)\>/
syntax match snaplabLine /^\s*\zs\d\+\ze\s*:/
syntax match snaplabForm /\(^\s*\d\+\s*:\s*\)\@<=\(let\|get\|bit\|look\|put\|view\|each\|first\|next\|if\|goto\|call\|return\|finish\)\>/
syntax keyword snaplabForm all where goto
syntax keyword snaplabWord and or not
syntax match snaplabTarget /\(\<\(goto\|call\)\s\+\)\@<=\d\+\>/
syntax keyword snaplabGiven me word arg n w
syntax match snaplabGiven /@/
syntax match snaplabField /\<\(data\|seq\|toggle\|id\|hand\|view\)\ze\s*(/
syntax match snaplabBank /\<[rqpv]\ze\s*\[/

" Schedules and histories: the shape, the process of an item or event, calls and ends.
syntax match snaplabHeader /^\s*\zsshape\ze\s\+\d/
syntax match snaplabHeader /^\s*\zsevent\ze\s\+\d/
syntax match snaplabCall /\(^\s*\(event\s\+\d\+\s\+\)\=\d\+\s\+\)\@<=\(scan\|update\|crash\|answer\|done\)\>/

" Debugger commands.
syntax match snaplabCommand /^\s*\zs\(step\|back\|goto\|run\|rrun\|break\|clear\|watch\|unwatch\|show\|values\|events\|where\)\>/

syntax match snaplabComment /#.*$/ contains=@Spell

highlight default link snaplabNumber Number
highlight default link snaplabOperator Operator
highlight default link snaplabPart Delimiter
highlight default link snaplabHeader Type
highlight default link snaplabKind Constant
highlight default link snaplabLine Label
highlight default link snaplabForm Statement
highlight default link snaplabWord Operator
highlight default link snaplabTarget Label
highlight default link snaplabGiven Identifier
highlight default link snaplabField Function
highlight default link snaplabBank Identifier
highlight default link snaplabCall Statement
highlight default link snaplabCommand Statement
highlight default link snaplabComment Comment

let b:current_syntax = 'snaplab'
