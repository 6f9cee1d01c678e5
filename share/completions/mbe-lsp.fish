# Completion of mbe-lsp for fish.
complete -c mbe-lsp -f
complete -c mbe-lsp -l stdio -d 'Use standard input and output'
complete -c mbe-lsp -s h -l help -d 'Print help'
complete -c mbe-lsp -s V -l version -d 'Print the version'
