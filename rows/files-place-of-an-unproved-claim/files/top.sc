def top(): Z = {
  Contract(
    Ensures(Res >= 6)
  )
  val y: Z = base()
  return y + 1
}
