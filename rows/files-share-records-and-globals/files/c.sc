def spend(b: Burn): Unit = {
  Contract(
    Requires(b.rate <= most, most <= fuel),
    Modifies(fuel),
    Ensures(fuel >= 0)
  )
  fuel = fuel - b.rate
}
