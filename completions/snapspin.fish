# Completion of snapspin for fish: put this file into ~/.config/fish/completions.
complete -c snapspin -l shipped -x -a 'seq bit multi' -d 'search the shipped listing of this kind'
complete -c snapspin -l crashes -x -d 'how many processes may crash'
complete -c snapspin -l memory -x -d 'the most memory of a search'
complete -c snapspin -l minutes -x -d 'the most minutes of a search'
complete -c snapspin -l depth -x -d 'the most steps of a run'
complete -c snapspin -l explain -d 'explain where and why a file is refused'
complete -c snapspin -s h -l help -d 'print help'
complete -c snapspin -s V -l version -d 'print the version'
