module certpath.example/show

go 1.19
