# fish completion of tftp-show, made by `make docs` of the help that the program prints

complete -c tftp-show -l flow -d 'Prints what happened in each transfer, when it is over'
complete -c tftp-show -l follow -d 'Prints a line as a transfer begins, and one as it ends'
complete -c tftp-show -l json -d 'Prints an object of JSON for each transfer, when it is over'
complete -c tftp-show -l svg -r -F -d 'Draws a transfer as a sequence diagram into this file'
complete -c tftp-show -l transfer -x -d 'The transfer that is drawn or alone printed, by its number in the report'
complete -c tftp-show -l port -x -d 'The port of requests in a capture'
complete -c tftp-show -s h -l help -d 'Print help'
complete -c tftp-show -s V -l version -d 'Print version'
