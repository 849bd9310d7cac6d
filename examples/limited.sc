def limited(commands: ISZ[Z], limit: Z): ISZ[Z] = {
  Contract(
    Ensures(
      Res.size == commands.size,
      All(Res.indices)(k => Res(k) <= limit)
    )
  )
  var out: ISZ[Z] = commands
  var i: Z = 0
  while (i < out.size) {
    Invariant(
      Modifies(out, i),
      0 <= i,
      i <= out.size,
      out.size == commands.size,
      All(0 until i)(k => out(k) <= limit)
    )
    var next: Z = out(i)
    if (next > limit) {
      next = limit
    }
    out = out(i ~> next)
    i = i + 1
  }
  return out
}
