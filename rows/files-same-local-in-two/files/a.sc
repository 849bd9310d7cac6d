def f(x: Z): Z = {
  val y: Z = x
  return y
}
