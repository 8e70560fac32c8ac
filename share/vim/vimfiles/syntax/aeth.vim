" Programs of Aetherling: functions on sequences, and rows behind the line %%.
if exists("b:current_syntax")
  finish
endif

syntax match aethComment "#.*$"
syntax match aethVersion "^\s*aeth\s\+2\>"
syntax match aethDefinition "^\s*\(fn\|end\)\>"
syntax match aethFunction "\(^\s*fn\s\+\)\@<=\w\+"
syntax match aethFunction "\(=\s*\(map\|map2\|call\)\s\+\)\@<=\w\+"
syntax match aethOperator "\(=\s*\)\@<=\(const\|add\|sub\|mul\|and\|or\|xor\|not\|min\|max\|eq\|lt\|mux\|shl\|shr\|cast\)\>"
syntax match aethOperator "\(=\s*\)\@<=\(pair\|fst\|snd\|zip\|call\|map\|map2\|reduce\|scan\|shift\|up\|select\|partition\|unpartition\)\>"
syntax match aethType "\(:\|\<const\s\+\|\<cast\s\+\)\@<=[][(),ui0-9]\+"
syntax match aethNumber "\(^\|\s\)\@<=\d\+\>"
syntax match aethMark "^\s*%%"

highlight default link aethComment Comment
highlight default link aethVersion PreProc
highlight default link aethDefinition Keyword
highlight default link aethFunction Function
highlight default link aethOperator Operator
highlight default link aethType Type
highlight default link aethNumber Number
highlight default link aethMark Special

let b:current_syntax = "aeth"
