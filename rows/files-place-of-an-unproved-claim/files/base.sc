def base(): Z = {
  Contract(
    Ensures(Res >= 4)
  )
  return 7
}
