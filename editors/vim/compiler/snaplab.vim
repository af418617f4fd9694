" Vim compiler file for snaplab. :make checks the file as it was saved, and jumps to the line that is refused; of a listing that is not
" refused it lists what lint warns of. A file of one part is a listing; one of two, a listing and a schedule, is run; one of more is
" debugged. Where b:snaplab_shipped is a kind of registers, the file has no listing, and begins with the schedule.
if exists('current_compiler')
  finish
endif
let current_compiler = 'snaplab'

let s:snaplab = 'snaplab'
if !executable(s:snaplab)
  let s:snaplab = shellescape(expand('<sfile>:p:h:h:h:h') . '/bin/snaplab')
endif

let s:parts = 1 + len(filter(getline(1, '$'), {_, line -> line =~# '^%\r\=$'}))
let s:shipped = get(b:, 'snaplab_shipped', '')
if empty(s:shipped) && s:parts == 1
  " A warning has the number of a line of the listing; awk looks up which line of the file that is.
  let s:task = s:snaplab . ' check --explain <%:S >/dev/null && ' . s:snaplab . ' lint <%:S \| awk '
        \ . shellescape('NR == FNR { if ($0 ~ /^[ \t]*[0-9]+[ \t]*:/) at[$1 + 0] = NR; next } '
        \ . '{ number = $2 + 0; sub(/^line [0-9]+: /, ""); print "warning in line " at[number] ": " $0 }') . ' %:S -'
else
  let s:command = s:parts + !empty(s:shipped) > 2 ? ' debug' : ' run'
  let s:task = s:snaplab . s:command . (empty(s:shipped) ? '' : ' --shipped ' . s:shipped) . ' --explain <%:S >/dev/null'
endif

" The shell's 2>&1 stands behind the parentheses, so that standard error alone is read of a run.
let &l:makeprg = '(echo in %:S; ' . s:task . ')'
let &l:errorformat = '%-Pin %f,'
      \ . '%Erefused: %m,'
      \ . '%Cline %l of the input\, %.%#\, column %c:,'
      \ . '%Cline %l of the input\, %.%#:,'
      \ . '%-C    %.%#,'
      \ . '%tarning in line %l: %m,'
      \ . '%C%m,'
      \ . '%-G%.%#'
