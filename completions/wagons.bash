# Completion of wagons for bash.
_wagons() {
    local current=${COMP_WORDS[COMP_CWORD]} previous=${COMP_WORDS[COMP_CWORD - 1]} word=${COMP_WORDS[1]}
    local words='check solve run feed moves fleet orders trace map plan table why review save explain'
    local office='--roster --from --network --entries --kept --workers --help'
    # bash parts `--roster=FILE` at its sign.
    if [ "$current" = = ]; then
        current=''
    elif [ "$previous" = = ]; then
        previous=${COMP_WORDS[COMP_CWORD - 2]}
    fi
    COMPREPLY=()
    if [ "$COMP_CWORD" -eq 1 ]; then
        mapfile -t COMPREPLY < <(compgen -W "$words help --help --version" -- "$current")
        return
    fi
    case $previous in
        --roster | --from | --network | --with | --places | --notes) mapfile -t COMPREPLY < <(compgen -f -- "$current"); return ;;
        --entries | --kept | --workers | --at | --upto | --without | --order | --wagon | --class | --zone | --company | --silent | --line | --near | --line-bytes) return ;;
    esac
    case $word in
        run) office+=' --notes' ;;
        review) office+=' --places --json' ;;
        moves) office+=' --at --places --zone --csv --json --late --order --wagon --company --silent' ;;
        fleet | orders) office+=' --places --zone --csv --json' ;;
        trace) office+=' --places --zone --csv --json --order --wagon' ;;
        map) office+=' --places --busy --order --class' ;;
        plan) office+=' --at --places --zone --csv' ;;
        table) office+=' --at' ;;
        why) office+=' --at --line --places --order --wagon --near --json --quick' ;;
        save) office+=' --upto --with --without' ;;
        feed)
            [[ $current == -* ]] || { mapfile -t COMPREPLY < <(compgen -f -- "$current"); return; }
            office+=' --notes'
            ;;
        check | solve) office='--line-bytes --help' ;;
        help) office=$words ;;
        *) office='--help' ;;
    esac
    mapfile -t COMPREPLY < <(compgen -W "$office" -- "$current")
}
complete -o filenames -F _wagons wagons
