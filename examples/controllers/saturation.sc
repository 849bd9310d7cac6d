// A controller with a proportional and an integral part. Its command and its integral stay within the limit.
val limit: Z = 100

var integral: Z = 0

def clamp(value: Z, low: Z, high: Z): Z = {
  Contract(
    Requires(low <= high),
    Ensures(
      low <= Res,
      Res <= high,
      (low <= value & value <= high) ->: (Res == value)
    )
  )
  var clamped: Z = value
  if (value < low) {
    clamped = low
  } else if (value > high) {
    clamped = high
  }
  return clamped
}

def command(target: Z, measured: Z): Z = {
  Contract(
    Requires(-limit <= integral, integral <= limit),
    Modifies(integral),
    Ensures(
      -limit <= integral,
      integral <= limit,
      -limit <= Res,
      Res <= limit
    )
  )
  val error: Z = target - measured
  integral = clamp(integral + error, -limit, limit)
  val wanted: Z = 3 * error + integral / 2
  val given: Z = clamp(wanted, -limit, limit)
  return given
}
