# bash completion of tftp, made by `make docs` of the help that the program prints

_tftp() {
    local words word how verb='' value='' place=0
    COMPREPLY=()
    # bash parts words at colons, too: ADDR:PORT is one word of the line
    read -ra words <<< "${COMP_LINE:0:COMP_POINT}"
    # the words before the one that is completed
    if [[ ${COMP_LINE:COMP_POINT-1:1} != ' ' ]]; then unset 'words[-1]'; fi
    for word in "${words[@]:1}"; do
        if [[ -n $value ]]; then
            value=''
            continue
        fi
        case $word in
        -b | --blksize | --timeout | --retries) value=$word ;;
        -*) ;;
        *) if [[ -z $verb && ' get put ' = *" $word "* ]]; then verb=$word; else place=$((place + 1)); fi ;;
        esac
    done
    # the option whose value is completed, or else the subcommand with the place of the word
    case ${value:-$verb$place},$2 in
    -*,*) return ;;
    put*,-*) how=(-W '--netascii --blksize -b --timeout --tsize --retries --backoff --fallback --progress --verbose -v --help -h') ;;
    get*,-*) how=(-W '--netascii --blksize -b --timeout --tsize --retries --backoff --fallback --progress --verbose -v --replace --no-dally --help -h') ;;
    *,-*) how=(-W '--help -h --version -V') ;;
    get2,* | put1,*) how=(-f) ;;
    0,*) how=(-W 'get put') ;;
    *) return ;;
    esac
    if [[ ${how[0]} != -W ]]; then compopt -o filenames 2> /dev/null; fi
    mapfile -t COMPREPLY < <(compgen "${how[@]}" -- "$2")
}

complete -F _tftp tftp
