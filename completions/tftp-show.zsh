#compdef tftp-show
# zsh completion of tftp-show, made by `make docs` of the help that the program prints

_arguments \
    '--flow[Prints what happened in each transfer, when it is over]' \
    '--follow[Prints a line as a transfer begins, and one as it ends]' \
    '--json[Prints an object of JSON for each transfer, when it is over]' \
    '--svg=[Draws a transfer as a sequence diagram into this file]:FILE:_files' \
    '--transfer=[The transfer that is drawn or alone printed, by its number in the report]:N: ' \
    '--port=[The port of requests in a capture]:1-65535: ' \
    '(--help -h)'{-h,--help}'[Print help]' \
    '(--version -V)'{-V,--version}'[Print version]' \
    '1:A capture, or lines:_files'
