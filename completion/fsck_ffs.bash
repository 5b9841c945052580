# Completion for bash: the options of fsck_ffs(8). Files are left to bash itself, which knows $HOME/ and ~/ too.
_fsck_ffs() {
    local current=${COMP_WORDS[COMP_CWORD]} before=${COMP_WORDS[COMP_CWORD - 1]}
    COMPREPLY=()
    if [[ $before == -b ]]; then
        mapfile -t COMPREPLY < <(compgen -W '16 32 64 128' -- "$current")
    elif [[ $current == -* ]]; then
        mapfile -t COMPREPLY < <(compgen -W '-n -N -b -h --help -V --version' -- "$current")
    fi
}
complete -o bashdefault -o default -F _fsck_ffs fsck_ffs
