@datatype class R(x: Z)
