def inc(x: Z): Z = {
  Contract(
    Requires(x >= 0),
    Ensures(Res == x + 1)
  )
  return x + 1
}
