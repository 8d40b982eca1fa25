" Vim syntax of qdemo, script with names. Made by tools/editors from the words of the code.
if exists('b:current_syntax')
  finish
endif
syntax case match
syntax match qdemonamesName /\v[0-9A-Za-z_.-]@1<![A-Za-z_]%([0-9A-Za-z_.]|-\>@!)*/
syntax match qdemonamesNumber /\v[0-9A-Za-z_.-]@1<!-?\d+%([0-9A-Za-z_.]|-\>@!)@!/
syntax match qdemonamesOperator /\v-\>|[=;|*]/
syntax match qdemonamesBytes /\v%(\d+x\x\x|%(\x\x)+|-)%([0-9A-Za-z_.]|-\>@!)@!\>@!/ contained nextgroup=qdemonamesBytes,qdemonamesText,qdemonamesSize skipwhite
syntax match qdemonamesEscape /\v\\%([ntr0"\\]|x\x\x)/ contained
syntax region qdemonamesText start=/"/ skip=/\\./ end=/"/ oneline contains=qdemonamesEscape nextgroup=qdemonamesBytes,qdemonamesText,qdemonamesSize skipwhite
syntax match qdemonamesSize /\v\[[^\]]*\]/ nextgroup=qdemonamesBytes,qdemonamesText,qdemonamesSize skipwhite
syntax match qdemonamesFlag /\v[0-9A-Za-z_.-]@1<!%(FIXED_PRIORITY|UNBLOCK|DISCONNECT)%([0-9A-Za-z_.]|-\>@!)@!/
syntax match qdemonamesComment /\v#.*$/
syntax match qdemonamesCall /\v%(create|attach|detach|send|receive|reply|error|read|write|info|receivepulse|pulse|setprio|unblock|state|destroy|shutdown)%([0-9A-Za-z_.]|-\>@!)@!/ contained
syntax match qdemonamesCall1 /\v%(send|receive)%([0-9A-Za-z_.]|-\>@!)@!/ contained nextgroup=qdemonamesNumber1,qdemonamesName1 skipwhite
syntax match qdemonamesCall2 /\v%(reply|read|write)%([0-9A-Za-z_.]|-\>@!)@!/ contained nextgroup=qdemonamesNumber2,qdemonamesName2 skipwhite
syntax match qdemonamesNumber1 /\v\d+%([0-9A-Za-z_.]|-\>@!)@!/ contained nextgroup=qdemonamesBytes,qdemonamesText,qdemonamesSize skipwhite
syntax match qdemonamesNumber2 /\v\d+%([0-9A-Za-z_.]|-\>@!)@!/ contained nextgroup=qdemonamesNumber3 skipwhite
syntax match qdemonamesName1 /\v[A-Za-z_]%([0-9A-Za-z_.]|-\>@!)*/ contained nextgroup=qdemonamesBytes,qdemonamesText,qdemonamesSize skipwhite
syntax match qdemonamesName2 /\v[A-Za-z_]%([0-9A-Za-z_.]|-\>@!)*/ contained nextgroup=qdemonamesNumber3 skipwhite
syntax match qdemonamesNumber3 /\v-?\d+%([0-9A-Za-z_.]|-\>@!)@!/ contained nextgroup=qdemonamesBytes,qdemonamesText,qdemonamesSize skipwhite
syntax match qdemonamesName4 /\v^\s*\zs[A-Za-z_]%([0-9A-Za-z_.]|-\>@!)*\ze\s+%(create|attach|detach|send|receive|reply|error|read|write|info|receivepulse|pulse|setprio|unblock|state|destroy|shutdown|is)%([0-9A-Za-z_.]|-\>@!)@!/ nextgroup=qdemonamesCall,qdemonamesCall1,qdemonamesCall2,qdemonamesKeyword2 skipwhite
syntax match qdemonamesName4 /\v[A-Za-z_]%([0-9A-Za-z_.]|-\>@!)*\ze\s+%(create|attach|detach|send|receive|reply|error|read|write|info|receivepulse|pulse|setprio|unblock|state|destroy|shutdown|is)%([0-9A-Za-z_.]|-\>@!)@!/ contained nextgroup=qdemonamesCall,qdemonamesCall1,qdemonamesCall2,qdemonamesKeyword2 skipwhite
syntax match qdemonamesNumber4 /\v^\s*\zs\d+\ze\s+%(create|attach|detach|send|receive|reply|error|read|write|info|receivepulse|pulse|setprio|unblock|state|destroy|shutdown|is)%([0-9A-Za-z_.]|-\>@!)@!/ nextgroup=qdemonamesCall,qdemonamesCall1,qdemonamesCall2,qdemonamesKeyword2 skipwhite
syntax match qdemonamesNumber4 /\v\d+\ze\s+%(create|attach|detach|send|receive|reply|error|read|write|info|receivepulse|pulse|setprio|unblock|state|destroy|shutdown|is)%([0-9A-Za-z_.]|-\>@!)@!/ contained nextgroup=qdemonamesCall,qdemonamesCall1,qdemonamesCall2,qdemonamesKeyword2 skipwhite
syntax match qdemonamesKeyword2 /\vis%([0-9A-Za-z_.]|-\>@!)@!/ contained nextgroup=qdemonamesState skipwhite
syntax match qdemonamesState /\v%(ready|SEND-blocked|RECEIVE-blocked|REPLY-blocked|blocked)%([0-9A-Za-z_.]|-\>@!)@!/ contained nextgroup=qdemonamesKeyword3 skipwhite
syntax match qdemonamesKeyword3 /\von%([0-9A-Za-z_.]|-\>@!)@!/ contained
syntax match qdemonamesThread /\v^\s*\zsthread%([0-9A-Za-z_.]|-\>@!)@!/
syntax match qdemonamesThread /\vthread%([0-9A-Za-z_.]|-\>@!)@!/ contained
syntax match qdemonamesOperator1 /\v\=/ contained nextgroup=qdemonamesName4,qdemonamesNumber4,qdemonamesThread skipwhite
syntax match qdemonamesDefinition /\v^\s*\zs[A-Za-z_]%([0-9A-Za-z_.]|-\>@!)*\ze\s*\=/ nextgroup=qdemonamesOperator1 skipwhite
syntax match qdemonamesResult /\v[0-9A-Za-z_.-]@1<!%(ok|fail|blocked|channel|connection|message|pulse|reply|error|count|state|info|user|unblock|disconnect|ready|send|receive)%([0-9A-Za-z_.]|-\>@!)@!/ contained
syntax match qdemonamesResult3 /\v[0-9A-Za-z_.-]@1<!%(message|reply|count)%([0-9A-Za-z_.]|-\>@!)@!/ contained nextgroup=qdemonamesNumber3,qdemonamesName1,qdemonamesOperator2 skipwhite
syntax match qdemonamesResult4 /\v[0-9A-Za-z_.-]@1<!state%([0-9A-Za-z_.]|-\>@!)@!/ contained nextgroup=qdemonamesResult5 skipwhite
syntax match qdemonamesResult5 /\v%(ready|send|receive|reply)%([0-9A-Za-z_.]|-\>@!)@!/ contained
syntax match qdemonamesOperator2 /\v\*/ contained nextgroup=qdemonamesBytes,qdemonamesText,qdemonamesSize skipwhite
syntax match qdemonamesResult1 /\v[0-9A-Za-z_.-]@1<!fail%([0-9A-Za-z_.]|-\>@!)@!/ contained nextgroup=qdemonamesError skipwhite
syntax match qdemonamesResult2 /\v[0-9A-Za-z_.-]@1<!bytes%([0-9A-Za-z_.]|-\>@!)@!/ contained nextgroup=qdemonamesBytes,qdemonamesText skipwhite
syntax match qdemonamesError /\v%(srch|badf|inval|again|intr|busy|nomemory|down)%([0-9A-Za-z_.]|-\>@!)@!/ contained
syntax match qdemonamesKeyword1 /\v[0-9A-Za-z_.-]@1<!%(not|or)%([0-9A-Za-z_.]|-\>@!)@!/ contained
syntax region qdemonamesResults matchgroup=qdemonamesOperator start=/->/ end=/$/ end=/[;#]/me=s-1 oneline contains=qdemonamesText,qdemonamesSize,qdemonamesNumber,qdemonamesName,qdemonamesOperator,qdemonamesResult,qdemonamesResult1,qdemonamesResult2,qdemonamesResult3,qdemonamesResult4
highlight default link qdemonamesBytes String
highlight default link qdemonamesCall Function
highlight default link qdemonamesCall1 Function
highlight default link qdemonamesCall2 Function
highlight default link qdemonamesComment Comment
highlight default link qdemonamesDefinition Define
highlight default link qdemonamesError Constant
highlight default link qdemonamesEscape SpecialChar
highlight default link qdemonamesFlag Constant
highlight default link qdemonamesKeyword1 Statement
highlight default link qdemonamesKeyword2 Statement
highlight default link qdemonamesKeyword3 Statement
highlight default link qdemonamesName Identifier
highlight default link qdemonamesName1 Identifier
highlight default link qdemonamesName2 Identifier
highlight default link qdemonamesName4 Identifier
highlight default link qdemonamesNumber Number
highlight default link qdemonamesNumber1 Number
highlight default link qdemonamesNumber2 Number
highlight default link qdemonamesNumber3 Number
highlight default link qdemonamesNumber4 Number
highlight default link qdemonamesOperator Operator
highlight default link qdemonamesOperator1 Operator
highlight default link qdemonamesOperator2 Operator
highlight default link qdemonamesResult Type
highlight default link qdemonamesResult1 Type
highlight default link qdemonamesResult2 Type
highlight default link qdemonamesResult3 Type
highlight default link qdemonamesResult4 Type
highlight default link qdemonamesResult5 Type
highlight default link qdemonamesSize String
highlight default link qdemonamesState Constant
highlight default link qdemonamesText String
highlight default link qdemonamesThread StorageClass
let b:current_syntax = 'qdemonames'
