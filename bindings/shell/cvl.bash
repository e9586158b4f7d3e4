# Completion of cvl for bash.
_cvl() {
    local word=${COMP_WORDS[COMP_CWORD]} before=${COMP_WORDS[COMP_CWORD - 1]}
    # bash cuts --tile=N at its sign
    if [[ $word == = ]]; then
        word=
    elif [[ $before == = ]]; then
        before=${COMP_WORDS[COMP_CWORD - 2]}
    fi
    case $before in
    --tile) mapfile -t COMPREPLY < <(compgen -W "1024 4096 16384 65536" -- "$word") ;;
    --workers) mapfile -t COMPREPLY < <(compgen -W "1 2 4 8 16 32 64" -- "$word") ;;
    *)
        case $word in
        -*) mapfile -t COMPREPLY < <(compgen -W "--tile --workers --explain --help -h --version -V" -- "$word") ;;
        *) compopt -o filenames; mapfile -t COMPREPLY < <(compgen -f -- "$word") ;;
        esac
        ;;
    esac
}
complete -F _cvl cvl
