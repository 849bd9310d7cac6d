@datatype class Burn(length: Z, rate: Z)
