module example.org/tftp

go 1.19
