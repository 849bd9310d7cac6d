def keep(p: B, q: B): Unit = {
  Contract(
    Requires(p & q),
    Ensures(q)
  )
}
