# Completion of mbex for fish.
complete -c mbex -l lint -d 'print how each rule reads the argument'
