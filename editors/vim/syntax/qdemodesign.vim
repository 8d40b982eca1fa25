" Vim syntax of qdemo, design. Made by tools/editors from the words of the code.
if exists('b:current_syntax')
  finish
endif
syntax case match
syntax match qdemodesignName /\v[0-9A-Za-z_.-]@1<![A-Za-z_]%([0-9A-Za-z_.]|-\>@!)*/
syntax match qdemodesignNumber /\v[0-9A-Za-z_.-]@1<!-?\d+%([0-9A-Za-z_.]|-\>@!)@!/
syntax match qdemodesignOperator /\v-\>|[=;|*]/
syntax match qdemodesignBytes /\v%(\d+x\x\x|%(\x\x)+|-)%([0-9A-Za-z_.]|-\>@!)@!\>@!/ contained nextgroup=qdemodesignBytes,qdemodesignText,qdemodesignSize skipwhite
syntax match qdemodesignEscape /\v\\%([ntr0"\\]|x\x\x)/ contained
syntax region qdemodesignText start=/"/ skip=/\\./ end=/"/ oneline contains=qdemodesignEscape nextgroup=qdemodesignBytes,qdemodesignText,qdemodesignSize skipwhite
syntax match qdemodesignSize /\v\[[^\]]*\]/ nextgroup=qdemodesignBytes,qdemodesignText,qdemodesignSize skipwhite
syntax match qdemodesignFlag /\v[0-9A-Za-z_.-]@1<!%(FIXED_PRIORITY|UNBLOCK|DISCONNECT)%([0-9A-Za-z_.]|-\>@!)@!/
syntax match qdemodesignComment /\v#.*$/
syntax match qdemodesignCall /\v%(create|attach|detach|send|receive|reply|error|read|write|info|receivepulse|pulse|setprio|unblock|state|destroy|shutdown)%([0-9A-Za-z_.]|-\>@!)@!/ contained
syntax match qdemodesignCall /\v^\s*\zs%(create|attach|detach|send|receive|reply|error|read|write|info|receivepulse|pulse|setprio|unblock|state|destroy|shutdown)%([0-9A-Za-z_.]|-\>@!)@!/
syntax match qdemodesignCall1 /\v%(send|receive)%([0-9A-Za-z_.]|-\>@!)@!/ contained nextgroup=qdemodesignNumber1,qdemodesignName1 skipwhite
syntax match qdemodesignCall1 /\v^\s*\zs%(send|receive)%([0-9A-Za-z_.]|-\>@!)@!/ nextgroup=qdemodesignNumber1,qdemodesignName1 skipwhite
syntax match qdemodesignCall2 /\v%(reply|read|write)%([0-9A-Za-z_.]|-\>@!)@!/ contained nextgroup=qdemodesignNumber2,qdemodesignName2 skipwhite
syntax match qdemodesignCall2 /\v^\s*\zs%(reply|read|write)%([0-9A-Za-z_.]|-\>@!)@!/ nextgroup=qdemodesignNumber2,qdemodesignName2 skipwhite
syntax match qdemodesignNumber1 /\v\d+%([0-9A-Za-z_.]|-\>@!)@!/ contained nextgroup=qdemodesignBytes,qdemodesignText,qdemodesignSize skipwhite
syntax match qdemodesignNumber2 /\v\d+%([0-9A-Za-z_.]|-\>@!)@!/ contained nextgroup=qdemodesignNumber3 skipwhite
syntax match qdemodesignName1 /\v[A-Za-z_]%([0-9A-Za-z_.]|-\>@!)*/ contained nextgroup=qdemodesignBytes,qdemodesignText,qdemodesignSize skipwhite
syntax match qdemodesignName2 /\v[A-Za-z_]%([0-9A-Za-z_.]|-\>@!)*/ contained nextgroup=qdemodesignNumber3 skipwhite
syntax match qdemodesignNumber3 /\v-?\d+%([0-9A-Za-z_.]|-\>@!)@!/ contained nextgroup=qdemodesignBytes,qdemodesignText,qdemodesignSize skipwhite
syntax match qdemodesignOperator1 /\v\=/ contained nextgroup=qdemodesignCall,qdemodesignCall1,qdemodesignCall2 skipwhite
syntax match qdemodesignDefinition1 /\v[A-Za-z_]%([0-9A-Za-z_.]|-\>@!)*/ contained
syntax match qdemodesignThread /\v^\s*\zsthread%([0-9A-Za-z_.]|-\>@!)@!/ nextgroup=qdemodesignDefinition1 skipwhite
syntax match qdemodesignKeyword /\v^\s*\zs%(expect|if|else|end|repeat|loop|serve|leave|stop|set|forget|push|pop|remove|inside|timeout|check|at|never)%([0-9A-Za-z_.]|-\>@!)@!/ nextgroup=qdemodesignKeyword2 skipwhite
syntax match qdemodesignKeyword2 /\v%(inversion|starvation)%([0-9A-Za-z_.]|-\>@!)@!/ contained
syntax match qdemodesignKeyword3 /\v^\s*\zs%(expect|if)%([0-9A-Za-z_.]|-\>@!)@!/ nextgroup=qdemodesignResults skipwhite
syntax match qdemodesignResult /\v[0-9A-Za-z_.-]@1<!%(ok|fail|channel|connection|reply|message|pulse|error|count|state|info|bytes|has|is|in|atleast|any|user|unblock|disconnect|ready|send|receive)%([0-9A-Za-z_.]|-\>@!)@!/ contained
syntax match qdemodesignResult3 /\v[0-9A-Za-z_.-]@1<!%(message|reply|count)%([0-9A-Za-z_.]|-\>@!)@!/ contained
syntax match qdemodesignResult4 /\v[0-9A-Za-z_.-]@1<!state%([0-9A-Za-z_.]|-\>@!)@!/ contained nextgroup=qdemodesignResult5 skipwhite
syntax match qdemodesignResult5 /\v%(ready|send|receive|reply)%([0-9A-Za-z_.]|-\>@!)@!/ contained
syntax match qdemodesignOperator2 /\v\*/ contained nextgroup=qdemodesignBytes,qdemodesignText,qdemodesignSize skipwhite
syntax match qdemodesignResult1 /\v[0-9A-Za-z_.-]@1<!fail%([0-9A-Za-z_.]|-\>@!)@!/ contained nextgroup=qdemodesignError skipwhite
syntax match qdemodesignResult2 /\v[0-9A-Za-z_.-]@1<!bytes%([0-9A-Za-z_.]|-\>@!)@!/ contained nextgroup=qdemodesignBytes,qdemodesignText skipwhite
syntax match qdemodesignError /\v%(srch|badf|inval|again|intr|busy|nomemory|down)%([0-9A-Za-z_.]|-\>@!)@!/ contained
syntax match qdemodesignKeyword1 /\v[0-9A-Za-z_.-]@1<!%(not|or)%([0-9A-Za-z_.]|-\>@!)@!/ contained
syntax region qdemodesignResults start=/\S\@=/ end=/$/ end=/[;#]/me=s-1 oneline contains=qdemodesignKeyword1,qdemodesignText,qdemodesignSize,qdemodesignNumber,qdemodesignName,qdemodesignOperator,qdemodesignResult,qdemodesignResult1,qdemodesignResult2,qdemodesignResult3,qdemodesignResult4 contained
syntax match qdemodesignDefinition /\v^\s*\zs[A-Za-z_]%([0-9A-Za-z_.]|-\>@!)*\ze\s*\=/ nextgroup=qdemodesignOperator1 skipwhite
highlight default link qdemodesignBytes String
highlight default link qdemodesignCall Function
highlight default link qdemodesignCall1 Function
highlight default link qdemodesignCall2 Function
highlight default link qdemodesignComment Comment
highlight default link qdemodesignDefinition Define
highlight default link qdemodesignDefinition1 Define
highlight default link qdemodesignError Constant
highlight default link qdemodesignEscape SpecialChar
highlight default link qdemodesignFlag Constant
highlight default link qdemodesignKeyword Statement
highlight default link qdemodesignKeyword1 Statement
highlight default link qdemodesignKeyword2 Statement
highlight default link qdemodesignKeyword3 Statement
highlight default link qdemodesignName Identifier
highlight default link qdemodesignName1 Identifier
highlight default link qdemodesignName2 Identifier
highlight default link qdemodesignNumber Number
highlight default link qdemodesignNumber1 Number
highlight default link qdemodesignNumber2 Number
highlight default link qdemodesignNumber3 Number
highlight default link qdemodesignOperator Operator
highlight default link qdemodesignOperator1 Operator
highlight default link qdemodesignOperator2 Operator
highlight default link qdemodesignResult Type
highlight default link qdemodesignResult1 Type
highlight default link qdemodesignResult2 Type
highlight default link qdemodesignResult3 Type
highlight default link qdemodesignResult4 Type
highlight default link qdemodesignResult5 Type
highlight default link qdemodesignSize String
highlight default link qdemodesignText String
highlight default link qdemodesignThread StorageClass
let b:current_syntax = 'qdemodesign'
