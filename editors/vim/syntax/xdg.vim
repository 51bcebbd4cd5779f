" The language of grammars of xdg (docs/language.md), coloured.
if exists('b:current_syntax')
  finish
endif
let s:cpo_save = &cpo
set cpo&vim

syn iskeyword 48-57,65-90,97-122,_,.
syn case match
" a comment or a quoted text may be long
syn sync minlines=200

syn keyword xdgStatement usedim defdim defclass defentry deftype deflabeltype defattrstype defentrytype
syn keyword xdgStatement useprinciple dims args output useoutput dim
syn keyword xdgType tuple set iset valency map card bool int string
syn keyword xdgPrinciple principle.graph principle.entries principle.tree principle.projectivity principle.dag
syn keyword xdgPrinciple principle.valency principle.order principle.agr principle.agreement principle.government
syn keyword xdgPrinciple principle.climbing principle.barriers
syn keyword xdgPrinciple principle.linkingEnd principle.linkingDaughter principle.linkingMother
syn keyword xdgPrinciple principle.linkingBelowStart principle.linkingAboveStart principle.linkingSisters
syn keyword xdgPrinciple principle.linkingNotDaughter
syn keyword xdgTruth true false

" the name that a statement defines or uses
syn match xdgDefined "\v%(<%(usedim|defdim|defclass|deftype)%(\s|\n)+)@<=[A-Za-z_][A-Za-z0-9_.]*>"
" a key before its colon
syn match xdgKey "\v<[A-Za-z_][A-Za-z0-9_.]*>\ze\s*:" contains=xdgStatement,xdgType

syn match xdgNumber "\v<[0-9]+>"
syn match xdgSign "[&|$:]"
syn match xdgCardinality "[!?*+]"
syn region xdgCardinality matchgroup=xdgCardinality start="#\s*[{\[]" end="[}\]]" contains=xdgNumber,xdgComment

syn region xdgText start=+"+ skip=+\\["\\]+ end=+"+ contains=xdgEscape,xdgWrongEscape
syn match xdgEscape +\\["\\]+ contained
syn match xdgWrongEscape +\\\%(["\\]\)\@!+ contained

syn keyword xdgTodo TODO FIXME XXX contained
syn region xdgComment start="%" end="$" contains=xdgTodo,@Spell oneline keepend
syn region xdgComment start="/\*" end="\*/" contains=xdgTodo,@Spell

hi def link xdgStatement Statement
hi def link xdgType Type
hi def link xdgPrinciple Function
hi def link xdgTruth Boolean
hi def link xdgDefined Identifier
hi def link xdgKey Label
hi def link xdgNumber Number
hi def link xdgSign Operator
hi def link xdgCardinality Special
hi def link xdgText String
hi def link xdgEscape SpecialChar
hi def link xdgWrongEscape Error
hi def link xdgTodo Todo
hi def link xdgComment Comment

let b:current_syntax = 'xdg'
let &cpo = s:cpo_save
unlet s:cpo_save
