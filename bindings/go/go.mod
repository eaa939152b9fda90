module swimtab.invalid/swimtab

go 1.19
