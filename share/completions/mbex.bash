# Completion of mbex for bash.
_mbex() {
    local word=${COMP_WORDS[COMP_CWORD]}
    case $word in
    -*) mapfile -t COMPREPLY < <(compgen -W '--lint' -- "$word") ;;
    20*) mapfile -t COMPREPLY < <(compgen -W '2015 2018 2021 2024' -- "$word") ;;
    *) mapfile -t COMPREPLY < <(compgen -f -- "$word") ;;
    esac
}
complete -o filenames -F _mbex mbex
