" Vim syntax file of the scripts of plexrun. Made by editors/make from docs/FORMS.md.
if exists('b:current_syntax')
  finish
endif
syntax case match

syntax keyword plexWord ADJ ALTER CACHE CASTOUT CHANGED COCLASS COMPLETE CONNECT COPY COSTATS CROSSINVAL DATA DECIDE DELETE
syntax keyword plexWord DENY DEQ DIRINFO DISCONNECT DUPLEX EVENTS EXCL FAIL FORCECONN FORCESTR HEAD HELDBY KEEP KEY KEYS
syntax keyword plexWord LCONTROLS LIST LOCK LOSECONN MONITOR MONSUB MOVE NAME NAMES NEXT NOTHELD NOTHING NOTIFY OBTAIN OFF
syntax keyword plexWord OLD ON POST READ READLIST REBUILD REC REGLIST RELEASE RESET RESPOND RESTORECONN RETRY RTDELETE
syntax keyword plexWord RTREAD SET SETLIMIT SHR START STEP STG STGSTATS STOP TAIL TAKE TEST TESTWORD UNCHANGED UNLOCK
syntax keyword plexWord UNMONITOR UNMONSUB UPDATE VARY VERSION WHENREG WRITE
syntax match plexNumber /\<\d\+\>/
syntax match plexFacility /\<CF[1-4]\>/
syntax match plexRecord /#\d\+/
syntax match plexResource /[A-Za-z0-9._-]\+@\d\+/

syntax match plexWho /^\s*[A-Z][A-Z0-9_]*\>/ nextgroup=plexStructure skipwhite
syntax match plexOperator /^\s*OP\>/ nextgroup=plexStructure skipwhite
syntax match plexStructure /[A-Z][A-Z0-9_]*/ contained nextgroup=plexCommand skipwhite
syntax match plexCommand /\<\%(ALTER\|CASTOUT\|COCLASS\|CONNECT\|COPY\|COSTATS\|CROSSINVAL\|DECIDE\|DELETE\|DEQ\|DIRINFO\|DISCONNECT\|DUPLEX\|EVENTS\|FAIL\|FORCECONN\|FORCESTR\|LCONTROLS\|LOCK\|LOSECONN\|MONITOR\|MONSUB\|MOVE\|NEXT\|OBTAIN\|POST\|READ\|READLIST\|REBUILD\|REGLIST\|RELEASE\|RESPOND\|RESTORECONN\|RTDELETE\|RTREAD\|SETLIMIT\|STGSTATS\|TAKE\|TEST\|TESTWORD\|UNLOCK\|UNMONITOR\|UNMONSUB\|UPDATE\|VARY\|WRITE\)\>/ contained
syntax match plexPolicy /^\s*\%(CONNECTOR\|FACILITY\|PREF\|STRUCTURE\)\>/
syntax match plexComment /^\s*\*.*$/

highlight default link plexComment Comment
highlight default link plexPolicy PreProc
highlight default link plexWho Identifier
highlight default link plexOperator Special
highlight default link plexStructure Type
highlight default link plexCommand Statement
highlight default link plexWord Keyword
highlight default link plexNumber Number
highlight default link plexFacility Constant
highlight default link plexRecord Constant
highlight default link plexResource String
let b:current_syntax = 'plex'
