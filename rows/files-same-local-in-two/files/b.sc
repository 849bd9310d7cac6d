def g(x: B): B = {
  val y: B = x
  return y
}
