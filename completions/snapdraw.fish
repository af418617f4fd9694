# Completion of snapdraw for fish: put this file into ~/.config/fish/completions.
complete -c snapdraw -l shipped -x -a 'seq bit multi' -d 'draw the shipped listing of this kind'
complete -c snapdraw -l from -x -d 'the first item that is drawn'
complete -c snapdraw -l to -x -d 'the last item that is drawn'
complete -c snapdraw -l reads -d 'draw a line from the last write of a word to each read of it'
complete -c snapdraw -l explain -d 'explain where and why a file is refused'
complete -c snapdraw -s h -l help -d 'print help'
complete -c snapdraw -s V -l version -d 'print the version'
