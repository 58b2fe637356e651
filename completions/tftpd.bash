# bash completion of tftpd, made by `make docs` of the help that the program prints

_tftpd() {
    local words word how verb='' value='' place=0
    COMPREPLY=()
    # bash parts words at colons, too: ADDR:PORT is one word of the line
    read -ra words <<< "${COMP_LINE:0:COMP_POINT}"
    # the words before the one that is completed
    if [[ ${COMP_LINE:COMP_POINT-1:1} != ' ' ]]; then unset 'words[-1]'; fi
    for word in "${words[@]:1}"; do
        if [[ -n $value ]]; then
            value=''
            continue
        fi
        case $word in
        --listen | --ports | --max-block | --max-file | --retries | --cap | --per-client | --longest | --length-memory | --uploads | --transfers | --rounds | --drain | --servers | --server | --status) value=$word ;;
        -*) ;;
        *) if [[ -z $verb && '  ' = *" $word "* ]]; then verb=$word; else place=$((place + 1)); fi ;;
        esac
    done
    # the option whose value is completed, or else the subcommand with the place of the word
    case ${value:-$verb$place},$2 in
    --listen,*) how=(-W 'stdin') ;;
    --drain,* | --status,*) how=(-f) ;;
    --servers,*) how=(-W 'auto') ;;
    -*,*) return ;;
    *,-*) how=(-W '--listen --requests-only --ports --max-block --max-file --retries --backoff --cap --per-client --longest --length-memory --overwrite --read-only --uploads --transfers --rounds --forever --drain --servers --server --log --log-time --status --help -h --version -V') ;;
    0,*) how=(-d) ;;
    *) return ;;
    esac
    if [[ ${how[0]} != -W ]]; then compopt -o filenames 2> /dev/null; fi
    mapfile -t COMPREPLY < <(compgen "${how[@]}" -- "$2")
}

complete -F _tftpd tftpd
