# Completion of mbe-lsp for bash.
_mbe_lsp() {
    mapfile -t COMPREPLY < <(compgen -W '--stdio --help --version' -- "${COMP_WORDS[COMP_CWORD]}")
}
complete -F _mbe_lsp mbe-lsp
