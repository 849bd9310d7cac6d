val most: Z = 10
var fuel: Z = 100
