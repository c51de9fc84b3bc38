" Vim and Neovim: in *.wat and *.wast, `:make` runs `wat check` on the file and puts the faults in the quickfix list.
" `gq` formats lines with `wat fmt`, and `gggqG` the whole file. Copy this file to ~/.vim/plugin/.
augroup wat
  autocmd!
  autocmd BufNewFile,BufRead *.wat,*.wast call s:SetOptions()
augroup END

function! s:SetOptions() abort
  setlocal makeprg=wat\ check\ %:S
  setlocal errorformat=%E%f:%l:%c:\ error:\ %m,%+Zhint:\ %.%#,%+Zexpected:\ %.%#,%E%f:\ error:\ %m,%-C%.%#,%-G%.%#
  setlocal formatprg=wat\ fmt
endfunction
