module cqlp.example.org/cqlp

go 1.19
