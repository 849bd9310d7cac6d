// The place that is taken from next runs past the end of the cells.
val capacity: Z = 8

var cells: ISZ[Z] = ISZ(0, 0, 0, 0, 0, 0, 0, 0)

var first: Z = 0

var used: Z = 0

def put(value: Z): B = {
  Contract(
    Requires(
      cells.size == capacity,
      0 <= first & first < capacity,
      0 <= used & used <= capacity
    ),
    Modifies(cells, used),
    Ensures(
      cells.size == capacity,
      0 <= used & used <= capacity,
      Res == (In(used) < capacity),
      Res ->: (used == In(used) + 1),
      !Res ->: (used == In(used))
    )
  )
  val room: B = used < capacity
  if (room) {
    var place: Z = first + used
    if (place >= capacity) {
      place = place - capacity
    }
    cells = cells(place ~> value)
    used = used + 1
  }
  return room
}

def take(): Z = {
  Contract(
    Requires(
      cells.size == capacity,
      0 <= first & first < capacity,
      0 < used & used <= capacity
    ),
    Modifies(first, used),
    Ensures(
      0 <= first & first < capacity,
      used == In(used) - 1,
      Res == cells(In(first))
    )
  )
  val value: Z = cells(first)
  first = first + 1
  used = used - 1
  return value
}

def rounds(turns: Z): Unit = {
  Contract(
    Requires(
      cells.size == capacity,
      0 <= first & first < capacity,
      0 <= used & used < capacity
    ),
    Modifies(cells, first, used),
    Ensures(used == In(used))
  )
  val before: Z = used
  var turn: Z = 0
  while (turn < turns) {
    Invariant(
      Modifies(cells, first, used, turn),
      cells.size == capacity,
      0 <= first & first < capacity,
      0 <= used & used < capacity,
      used == before
    )
    val stored: B = put(turn)
    val taken: Z = take()
    turn = turn + 1
  }
}
