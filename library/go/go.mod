module example.com/capkit

go 1.18
