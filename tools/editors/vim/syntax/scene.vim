" The scene language of Yagdrob; docs/use/writing-scenes.md teaches it.
" To use it: add the folder tools/editors/vim to 'runtimepath'.
if exists('b:current_syntax')
  finish
endif
syntax case match

" a line that no rule below takes is no line of the language
syntax match sceneOther /^.*$/
syntax match sceneComment /^#.*$/

" words that stand alone or have numbers
syntax match sceneHead /^\%(scene\|size\|encoders\|room\|latency\)\ze / nextgroup=sceneRest
syntax match scenePart /^\%(frame\|beside\|done\)$/
syntax match scenePart /^encoder\ze / nextgroup=sceneRest
" lines that make things: the name behind the word is new
syntax match sceneThing /^\%(layout\|texture\|fb\|program\|uniform\)\ze / nextgroup=sceneNew
syntax match sceneThing /^\%(vb\|ib\)\ze / nextgroup=sceneNewData
syntax match sceneThing /^destroy\ze / nextgroup=sceneRest
syntax match sceneThing /^\%(update\|texupdate\)\ze / nextgroup=sceneData
syntax match sceneView /^view \d\+ \%(rect\|scissor\|mode\|target\|transform\|reset\)\>/ nextgroup=sceneRest
syntax match sceneView /^view \d\+ clear\ze / nextgroup=sceneFlags
syntax match sceneView /^order\>/ nextgroup=sceneRest
syntax match sceneDraw /^\%(state\|stencil\|scissor\|transform\|vertices\|indices\|bind\|set\|submit\|touch\|blit\)\ze / nextgroup=sceneRest
syntax match sceneDraw /^\%(tvertices\|tindices\)\ze / nextgroup=sceneData

" what stands behind the words; HEX is the last field of the lines that have it
syntax match sceneNew / [a-z][a-z0-9_]\{,31\}/ contained nextgroup=sceneRest
syntax match sceneNewData / [a-z][a-z0-9_]\{,31\}/ contained nextgroup=sceneData
syntax match sceneFlags / \d\+/ contained nextgroup=sceneColor
syntax match sceneColor / \x\{8\}/ contained nextgroup=sceneRest
syntax match sceneRest / .*$/ contained contains=sceneName,sceneKind,sceneNumber,sceneSource,sceneAttribute
syntax match sceneData / .*$/ contained contains=sceneName,sceneNumber,sceneHex
syntax match sceneName / \zs[a-z][a-z0-9_]\{,31\}\ze\%( \|$\)/ contained
syntax match sceneNumber / \zs-\?\d\+\ze\%( \|$\)/ contained
syntax match sceneHex / \zs\%(\x\x\)\+$/ contained
syntax match sceneSource / \zs\%(fill\|hex\):\%(-\|\%(\x\x\)\+\)$/ contained
syntax keyword sceneKind contained solid color texture texcolor vec4 int rgba8 d24s8 dst default sequential ascending descending
syntax match sceneAttribute / \zs\%(position\|normal\|tangent\|color[01]\|texcoord[01]\):\%(u8\|i16\|fixed\):[1-4]/ contained
syntax match sceneAttribute / \zsskip:\d\+/ contained

highlight default link sceneOther Error
highlight default link sceneComment Comment
highlight default link sceneHead PreProc
highlight default link scenePart Label
highlight default link sceneThing Type
highlight default link sceneView Statement
highlight default link sceneDraw Function
highlight default link sceneNew Identifier
highlight default link sceneNewData Identifier
highlight default link sceneFlags Number
highlight default link sceneColor String
highlight default link sceneSource Comment
highlight default link sceneName Identifier
highlight default link sceneKind Constant
highlight default link sceneAttribute Special
highlight default link sceneNumber Number
highlight default link sceneHex Comment

let b:current_syntax = 'scene'
