module rumstrait

go 1.19
