" `:source` this file, or copy it to ~/.vim/compiler/ and say `:compiler piotool`. Then `:make` in a source calls piotool-lint with the
" configuration beside it, and `:cnext` goes from place to place.
let current_compiler = 'piotool'
let &makeprg = 'piotool-lint %:S --config %:r:S.toml $*'
let &errorformat = '%f:%l:%c: %trror: %m,%f:%l:%c: %tarning: %m,%f:%l:%c: %tote: %m,piotool-lint: %m,%-G%.%#'
