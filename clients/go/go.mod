module jepmon

go 1.19
