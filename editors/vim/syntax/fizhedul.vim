" Databases, queries and edits of Fizhedul: each token has its class, and what is no token is an error.
if exists('b:current_syntax')
  finish
endif
syntax case match

" Of matches that begin at one place, the last one defined is taken.
syntax match fizhedulError /[^ \t\r]/
syntax match fizhedulName /\h\w*/
syntax match fizhedulRelation /\h\w*\ze\s*(/
" The word of a temporal operator stands before a name; after a colon it is a sort.
syntax match fizhedulKeyword /\(once\|always\|since\|until\)\ze\s\+\(\(relation\|where\|time\|data\|n\|exists\|forall\|implies\|not\|and\|or\|in\)\w\@!\)\@!\h/
" So does the word that begins a definition; `as` stands after the parenthesis of its columns.
syntax match fizhedulKeyword /define\ze\s\+\(\(relation\|where\|time\|data\|n\|exists\|forall\|implies\|not\|and\|or\|in\)\w\@!\)\@!\h/
syntax match fizhedulKeyword /\()\s\?\)\@<=as\w\@!/
syntax match fizhedulSort /\(:\s*\)\@<=\h\w*/
syntax match fizhedulType /\(time\|data\)\w\@!/
syntax match fizhedulPoint /n\w\@!/
syntax match fizhedulKeyword /\(relation\|where\|exists\|forall\|implies\|not\|and\|or\|in\)\w\@!/
syntax match fizhedulNumber /\d\+/
" Civil values.
syntax match fizhedulNumber /daily \([01]\d\|2[0-3]\):[0-5]\d\d\@!/
syntax match fizhedulNumber /weekly \(mon\|tue\|wed\|thu\|fri\|sat\|sun\) \([01]\d\|2[0-3]\):[0-5]\d\d\@!/
syntax match fizhedulNumber /on \d\{4}-\(0[1-9]\|1[0-2]\)-\(0[1-9]\|[12]\d\|3[01]\) \([01]\d\|2[0-3]\):[0-5]\d\d\@!/
syntax match fizhedulNumber /every [1-9]\d* \(minutes\|hours\|days\|weeks\) from \d\{4}-\(0[1-9]\|1[0-2]\)-\(0[1-9]\|[12]\d\|3[01]\) \([01]\d\|2[0-3]\):[0-5]\d\d\@!/
syntax match fizhedulOperator /<=\|>=\|!=\|[-<>=+*]/
syntax match fizhedulDelimiter /[(){},:;|]/
syntax match fizhedulError /".*$/
syntax match fizhedulText /"\([^"\\]\|\\.\)*"/ contains=fizhedulEscape,fizhedulBad
syntax match fizhedulBad /\\[^"\\]\|[[:cntrl:]]/ contained
syntax match fizhedulEscape /\\["\\]/ contained
syntax match fizhedulComment /#.*$/ contains=@Spell

highlight default link fizhedulError Error
highlight default link fizhedulBad Error
highlight default link fizhedulName Identifier
highlight default link fizhedulRelation Function
highlight default link fizhedulSort Type
highlight default link fizhedulType Type
highlight default link fizhedulPoint Number
highlight default link fizhedulNumber Number
highlight default link fizhedulKeyword Keyword
highlight default link fizhedulOperator Operator
highlight default link fizhedulDelimiter Delimiter
highlight default link fizhedulText String
highlight default link fizhedulEscape SpecialChar
highlight default link fizhedulComment Comment

let b:current_syntax = 'fizhedul'
