def g(p: B): Z = {
  return p
}
def g(): Unit = {
}
