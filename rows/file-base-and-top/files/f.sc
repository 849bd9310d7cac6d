def base(): Z = {
  Contract(
    Ensures(Res >= 5)
  )
  return 7
}
def top(): Z = {
  Contract(
    Ensures(Res >= 6)
  )
  val y: Z = base()
  return y + 1
}
