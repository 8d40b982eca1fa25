" Vim syntax of qdemo, script. Made by tools/editors from the words of the code.
if exists('b:current_syntax')
  finish
endif
syntax case match
syntax match qdemoscriptName /\v[0-9A-Za-z_.-]@1<![A-Za-z_]%([0-9A-Za-z_.]|-\>@!)*/
syntax match qdemoscriptNumber /\v[0-9A-Za-z_.-]@1<!-?\d+%([0-9A-Za-z_.]|-\>@!)@!/
syntax match qdemoscriptOperator /\v-\>|[=;|*]/
syntax match qdemoscriptBytes /\v%(\d+x\x\x|%(\x\x)+|-)%([0-9A-Za-z_.]|-\>@!)@!\>@!/ contained nextgroup=qdemoscriptBytes,qdemoscriptText,qdemoscriptSize skipwhite
syntax match qdemoscriptComment /\v^\s*#.*$/
syntax match qdemoscriptCall /\v%(create|attach|detach|send|receive|reply|error|read|write|info|receivepulse|pulse|setprio|unblock|state|destroy|shutdown)%([0-9A-Za-z_.]|-\>@!)@!/ contained
syntax match qdemoscriptCall1 /\v%(send|receive)%([0-9A-Za-z_.]|-\>@!)@!/ contained nextgroup=qdemoscriptNumber1,qdemoscriptName1 skipwhite
syntax match qdemoscriptCall2 /\v%(reply|read|write)%([0-9A-Za-z_.]|-\>@!)@!/ contained nextgroup=qdemoscriptNumber2,qdemoscriptName2 skipwhite
syntax match qdemoscriptNumber1 /\v\d+%([0-9A-Za-z_.]|-\>@!)@!/ contained nextgroup=qdemoscriptBytes,qdemoscriptText,qdemoscriptSize skipwhite
syntax match qdemoscriptNumber2 /\v\d+%([0-9A-Za-z_.]|-\>@!)@!/ contained nextgroup=qdemoscriptNumber3 skipwhite
syntax match qdemoscriptName1 /\v[A-Za-z_]%([0-9A-Za-z_.]|-\>@!)*/ contained nextgroup=qdemoscriptBytes,qdemoscriptText,qdemoscriptSize skipwhite
syntax match qdemoscriptName2 /\v[A-Za-z_]%([0-9A-Za-z_.]|-\>@!)*/ contained nextgroup=qdemoscriptNumber3 skipwhite
syntax match qdemoscriptNumber3 /\v-?\d+%([0-9A-Za-z_.]|-\>@!)@!/ contained nextgroup=qdemoscriptBytes,qdemoscriptText,qdemoscriptSize skipwhite
syntax match qdemoscriptNumber4 /\v^\s*\zs\d+\ze\s+%(create|attach|detach|send|receive|reply|error|read|write|info|receivepulse|pulse|setprio|unblock|state|destroy|shutdown)%([0-9A-Za-z_.]|-\>@!)@!/ nextgroup=qdemoscriptCall,qdemoscriptCall1,qdemoscriptCall2 skipwhite
syntax match qdemoscriptThread /\v^\s*\zsthread%([0-9A-Za-z_.]|-\>@!)@!/
highlight default link qdemoscriptBytes String
highlight default link qdemoscriptCall Function
highlight default link qdemoscriptCall1 Function
highlight default link qdemoscriptCall2 Function
highlight default link qdemoscriptComment Comment
highlight default link qdemoscriptName Identifier
highlight default link qdemoscriptName1 Identifier
highlight default link qdemoscriptName2 Identifier
highlight default link qdemoscriptNumber Number
highlight default link qdemoscriptNumber1 Number
highlight default link qdemoscriptNumber2 Number
highlight default link qdemoscriptNumber3 Number
highlight default link qdemoscriptNumber4 Number
highlight default link qdemoscriptOperator Operator
highlight default link qdemoscriptThread StorageClass
let b:current_syntax = 'qdemoscript'
