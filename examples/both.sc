def both(p: B, q: B): B = {
  Contract(
    Requires(p & q),
    Ensures(Res | !q)
  )
  val r: B = p & q
  assert(r)
  return r
}
