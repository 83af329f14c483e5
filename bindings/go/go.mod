module nolavimure/commitgraph

go 1.19
