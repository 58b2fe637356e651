#compdef tftpd
# zsh completion of tftpd, made by `make docs` of the help that the program prints

_arguments \
    '*--listen=[IPv4 address and UDP port of the requests, 0 for any, once or more]:ADDR\:PORT|stdin:(stdin)' \
    '--requests-only[Drops what arrives at the request port and begins neither as RRQ nor as WRQ, without an ERROR]' \
    '--ports=[UDP ports of transfers, A to B, each drawn at random]:A\:B: ' \
    '--max-block=[Largest block size that is agreed, in bytes]:8..65464: ' \
    '--max-file=[Longest file that a write may announce by tsize, in bytes]:0..2^64-1: ' \
    '--retries=[How often a datagram is sent again without progress]:0..10: ' \
    '--backoff[Waits twice as long after each further timeout without progress, up to eight times (RFC 1123)]' \
    '--cap=[Transfers that are open at once]:1..64: ' \
    '--per-client=[Transfers of one address that are open at once]:1..64: ' \
    '--longest=[Longest age of a transfer in seconds]:1..4294967295: ' \
    '--length-memory=[Memory in bytes for the lengths of netascii files, which are measured once]:0..2^64-1: ' \
    '(--read-only)--overwrite[A write replaces a file that is there]' \
    '(--overwrite --uploads)--read-only[Refuses every write as an access violation (ERROR 2), and touches no file for it]' \
    '(--read-only)--uploads=[Takes writes below this folder of ROOT alone, and makes its temporary files there]:FOLDER: ' \
    '(--forever)--transfers=[Ends after so many closed transfers]:1..4294967295: ' \
    '(--forever)--rounds=[Ends after so many waits, each of a second at most]:1..4294967295: ' \
    '(--rounds --transfers)--forever[Ends by no count of transfers or waits]' \
    '--drain=[Takes no new request once this file is there, and ends when no transfer is open]:FILE:_files' \
    '(--server)--servers=[Starts so many servers at one request port, for as many processors, or one for each]:1..64|auto:(auto)' \
    '(--servers)--server=[Internal: number of this server of several, passed by --servers]:1..64: ' \
    '--log[Writes a line on standard error for each request and each close]' \
    '--log-time[Begins each line of --log with its time in UTC, to the millisecond]' \
    '--status=[Writes what the server has counted to this file, once a second at most, for Prometheus and people]:FILE:_files' \
    '(--help -h)'{-h,--help}'[Print help]' \
    '(--version -V)'{-V,--version}'[Print version]' \
    '1:The folder whose files are served:_files -/'
