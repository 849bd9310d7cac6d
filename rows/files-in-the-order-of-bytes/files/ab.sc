val u: Z = F
