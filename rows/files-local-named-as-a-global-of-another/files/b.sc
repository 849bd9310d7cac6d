val y: Z = 0
