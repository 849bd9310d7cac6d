// A sign of life resets what has tripped.
val patience: Z = 3

var missed: Z = 0

def tick(alive: B): B = {
  Contract(
    Requires(0 <= missed, missed <= patience),
    Modifies(missed),
    Ensures(
      0 <= missed,
      missed <= patience,
      Res == (missed == patience),
      (In(missed) == patience) ->: (missed == patience),
      (alive & In(missed) < patience) ->: (missed == 0)
    )
  )
  if (alive) {
    missed = 0
  } else if (missed < patience) {
    missed = missed + 1
  }
  return missed == patience
}

def watch(signs: ISZ[B]): B = {
  Contract(
    Requires(0 <= missed, missed <= patience),
    Modifies(missed),
    Ensures(
      Res == (missed == patience),
      (In(missed) == patience) ->: Res
    )
  )
  val before: Z = missed
  var turn: Z = 0
  while (turn < signs.size) {
    Invariant(
      Modifies(missed, turn),
      0 <= turn,
      0 <= missed,
      missed <= patience,
      (before == patience) ->: (missed == patience)
    )
    val tripped: B = tick(signs(turn))
    turn = turn + 1
  }
  return missed == patience
}
