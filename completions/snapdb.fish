# Completion of snapdb for fish: put this file into ~/.config/fish/completions.
complete -c snapdb -l shipped -x -a 'seq bit multi' -d 'take the shipped listing of this kind'
complete -c snapdb -l explain -d 'explain where and why a file is refused'
complete -c snapdb -s h -l help -d 'print help'
complete -c snapdb -s V -l version -d 'print the version'
