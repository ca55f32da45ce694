# completions of velodrome for bash, made by tools/shell_pages.py
_velodrome() {
    local word=${COMP_WORDS[COMP_CWORD]} before=${COMP_WORDS[COMP_CWORD-1]} words=
    if [ "$COMP_CWORD" -eq 1 ]; then
        COMPREPLY=($(compgen -W "check replay run explain carry explore watch audit thin predict verify help --help --version" -- "$word"))
        return
    fi
    case $before in --events|--format|--ignore-label|--ignore-lock|--ignore-variable|--nodes|--random|--schedule|--seconds|--seed|--states|--tries|--turns) COMPREPLY=(); return ;; esac
    case ${COMP_WORDS[1]} in
        check) words="--names --why --events --nodes --certificate --help" ;;
        replay) words="--schedule --turns --stop --why --log --names-out --events --nodes --certificate --help" ;;
        run) words="--stop --why --log --names-out --events --nodes --certificate --help" ;;
        explain) words="--format --names --sites --not-atomic --ignore --ignore-label --ignore-lock --ignore-locks --ignore-variable --help" ;;
        carry) words="--log --help" ;;
        explore) words="--states --seconds --first --progress --random --seed --format --log --names-out --events --nodes --certificate --help" ;;
        watch) words="--names --sites --stop --endless --not-atomic --ignore --ignore-label --ignore-lock --ignore-locks --ignore-variable --events --nodes --certificate --help" ;;
        audit) words="--no-witness --format --names --sites --not-atomic --ignore --ignore-label --ignore-lock --ignore-locks --ignore-variable --events --nodes --help" ;;
        thin) words="--log --map --names --not-atomic --ignore --ignore-label --ignore-lock --ignore-locks --ignore-variable --help" ;;
        predict) words="--log --values --tries --seed --format --names --sites --not-atomic --ignore --ignore-label --ignore-lock --ignore-locks --ignore-variable --events --nodes --help" ;;
        verify) words="--help" ;;
    esac
    case $word in
        -*) COMPREPLY=($(compgen -W "$words" -- "$word")) ;;
        *) COMPREPLY=($(compgen -f -- "$word")) ;;
    esac
}
complete -o filenames -F _velodrome velodrome
