module certificate

go 1.19
