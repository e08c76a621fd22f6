" Colours of bench files: put this file into the folder syntax, and a line
" 'au BufRead,BufNewFile *.bench set filetype=bench' into the folder ftdetect.
if exists("b:current_syntax")
  finish
endif
runtime! syntax/toml.vim
unlet! b:current_syntax
syntax match benchSeparator "^---$"
syntax match benchComment "#.*$"
syntax keyword benchDirective call do enter serve run upto finish tick level analog trigger miso spifault detach fill reset show
syntax match benchService "\<\(Mcu\|Port\|Gpt\|Pwm\|Icu\|Adc\|Spi\|Dio\|Wdg\)_\w\+"
syntax keyword benchWord act mask unmask note power watchdog pins wire buffers ram src dst null INVALID
syntax match benchNumber "\<\(0x\x\+\|\d\+\)\>"
highlight default link benchSeparator PreProc
highlight default link benchComment Comment
highlight default link benchDirective Statement
highlight default link benchService Function
highlight default link benchWord Constant
highlight default link benchNumber Number
let b:current_syntax = "bench"
