# fish completion of tftp-play, made by `make docs` of the help that the program prints

complete -c tftp-play -l svg -r -F -d 'Draws the run as a sequence diagram into this file'
complete -c tftp-play -l events -d 'Prints the event beside each -'
complete -c tftp-play -s h -l help -d 'Print help'
complete -c tftp-play -s V -l version -d 'Print version'
