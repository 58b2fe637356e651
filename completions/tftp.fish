# fish completion of tftp, made by `make docs` of the help that the program prints

complete -c tftp -f
complete -c tftp -n '__fish_seen_subcommand_from get; and test (count (commandline -opc)) -ge 4' -F
complete -c tftp -n '__fish_seen_subcommand_from put; and test (count (commandline -opc)) -ge 3' -F
complete -c tftp -n __fish_use_subcommand -a get -d 'Fetches a file'
complete -c tftp -n __fish_use_subcommand -a put -d 'Sends a file'
complete -c tftp -n __fish_use_subcommand -s h -l help -d 'Print help'
complete -c tftp -n __fish_use_subcommand -s V -l version -d 'Print version'
complete -c tftp -n '__fish_seen_subcommand_from get put' -l netascii -d 'The file is text, and travels with CR LF at its line ends'
complete -c tftp -n '__fish_seen_subcommand_from get put' -s b -l blksize -x -d 'Block size that is asked, in bytes'
complete -c tftp -n '__fish_seen_subcommand_from get put' -l timeout -x -d 'Timeout that is asked, in seconds'
complete -c tftp -n '__fish_seen_subcommand_from get put' -l tsize -d 'Asks for the length of the file'
complete -c tftp -n '__fish_seen_subcommand_from get put' -l retries -x -d 'How often a datagram is sent again without progress'
complete -c tftp -n '__fish_seen_subcommand_from get put' -l backoff -d 'Waits twice as long after each timeout, up to eight times'
complete -c tftp -n '__fish_seen_subcommand_from get put' -l fallback -d 'Tries again without options where the server refuses them'
complete -c tftp -n '__fish_seen_subcommand_from get put' -l progress -d 'Shows how far the transfer came, where standard error is a terminal'
complete -c tftp -n '__fish_seen_subcommand_from get put' -s v -l verbose -d 'No effect: the cause of a failure is always printed'
complete -c tftp -n '__fish_seen_subcommand_from get' -l replace -d 'Replaces LOCAL, if it is a regular file, once the new file is whole'
complete -c tftp -n '__fish_seen_subcommand_from get' -l no-dally -d 'Ends once LOCAL has its name'
complete -c tftp -n '__fish_seen_subcommand_from get put' -s h -l help -d 'Print help'
