def base(): Z = {
  Contract(
    Ensures(Res >= 5)
  )
  return 7
}
