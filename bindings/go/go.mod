module vinjakwe

go 1.19
