module example.org/tpmsim

go 1.19
