val c: R = R(1)
