#compdef tftp-play
# zsh completion of tftp-play, made by `make docs` of the help that the program prints

_arguments \
    '--svg=[Draws the run as a sequence diagram into this file]:FILE:_files' \
    '--events[Prints the event beside each -]' \
    '(--help -h)'{-h,--help}'[Print help]' \
    '(--version -V)'{-V,--version}'[Print version]' \
    '1:The script:_files'
