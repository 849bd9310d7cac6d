val t: Z = T
