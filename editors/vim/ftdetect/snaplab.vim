" Inputs of snaplab: by their endings, or by the header of a listing or the shape of a schedule near the top.
autocmd BufNewFile,BufRead *.snap,*.sched setfiletype snaplab
autocmd BufRead *.txt,*/stdin call s:Detect()

function! s:Detect() abort
  for line in getline(1, 20)
    if line =~# '^\s*kind\s\+\(seq\|bit\|multi\)\s*\(#.*\)\=$' || line =~# '^\s*shape\s\+\d\+\s\+\d\+\s*\(#.*\)\=$'
      set filetype=snaplab
      return
    endif
    if line !~# '^\s*\(#.*\)\=$'
      return
    endif
  endfor
endfunction
