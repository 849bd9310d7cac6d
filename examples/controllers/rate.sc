// An output that follows a target by at most one step a turn.
val step: Z = 5

var output: Z = 0

def follow(target: Z): Unit = {
  Contract(
    Modifies(output),
    Ensures(
      output - In(output) <= step,
      In(output) - output <= step,
      (In(output) <= target) ->: (In(output) <= output & output <= target),
      (In(output) >= target) ->: (In(output) >= output & output >= target)
    )
  )
  if (target > output + step) {
    output = output + step
  } else if (target < output - step) {
    output = output - step
  } else {
    output = target
  }
}

def rise(target: Z, turns: Z): Unit = {
  Contract(
    Requires(output <= target),
    Modifies(output),
    Ensures(In(output) <= output, output <= target)
  )
  val start: Z = output
  var turn: Z = 0
  while (turn < turns) {
    Invariant(
      Modifies(output, turn),
      start <= output,
      output <= target
    )
    follow(target)
    turn = turn + 1
  }
}
