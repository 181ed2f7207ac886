module vault

go 1.19

require example.org/tpmsim v0.1.0

replace example.org/tpmsim => ../../clients/go
