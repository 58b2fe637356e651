#compdef tftp
# zsh completion of tftp, made by `make docs` of the help that the program prints

case $words[2] in
get)
  shift words
  (( CURRENT-- ))
  _arguments \
    '--netascii[The file is text, and travels with CR LF at its line ends]' \
    '(--blksize -b)'{-b+,--blksize=}'[Block size that is asked, in bytes]:8..65464: ' \
    '--timeout=[Timeout that is asked, in seconds]:1..255: ' \
    '--tsize[Asks for the length of the file]' \
    '--retries=[How often a datagram is sent again without progress]:0..10: ' \
    '--backoff[Waits twice as long after each timeout, up to eight times]' \
    '--fallback[Tries again without options where the server refuses them]' \
    '--progress[Shows how far the transfer came, where standard error is a terminal]' \
    '(--verbose -v)'{-v,--verbose}'[No effect: the cause of a failure is always printed]' \
    '--replace[Replaces LOCAL, if it is a regular file, once the new file is whole]' \
    '--no-dally[Ends once LOCAL has its name]' \
    '(--help -h)'{-h,--help}'[Print help]' \
    '1:IPv4 address and UDP port of the server’s requests: ' \
    '2:The name of the file at the server: ' \
    '3:The path of the file here, which must not exist without --replace:_files'
  ;;
put)
  shift words
  (( CURRENT-- ))
  _arguments \
    '--netascii[The file is text, and travels with CR LF at its line ends]' \
    '(--blksize -b)'{-b+,--blksize=}'[Block size that is asked, in bytes]:8..65464: ' \
    '--timeout=[Timeout that is asked, in seconds]:1..255: ' \
    '--tsize[Asks for the length of the file]' \
    '--retries=[How often a datagram is sent again without progress]:0..10: ' \
    '--backoff[Waits twice as long after each timeout, up to eight times]' \
    '--fallback[Tries again without options where the server refuses them]' \
    '--progress[Shows how far the transfer came, where standard error is a terminal]' \
    '(--verbose -v)'{-v,--verbose}'[No effect: the cause of a failure is always printed]' \
    '(--help -h)'{-h,--help}'[Print help]' \
    '1:IPv4 address and UDP port of the server’s requests: ' \
    '2:The path of the file here:_files' \
    '3:The name of the file at the server: '
  ;;
*)
  _arguments \
    '(--help -h)'{-h,--help}'[Print help]' \
    '(--version -V)'{-V,--version}'[Print version]' \
    '1:command:((get\:"Fetches a file" put\:"Sends a file"))'
  ;;
esac
