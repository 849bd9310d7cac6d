// What is appended is compared with the first value of the log, and not with the last.
// The order is claimed as !!All(..), not as All(..): so it is no fact that is applied to each place, and only the proof opens it.
def appended(log: ISZ[Z], value: Z): ISZ[Z] = {
  Contract(
    Requires(
      !!All(1 until log.size)(k => log(k - 1) <= log(k)),
      (log.size > 0) ->: (log(0) <= value)
    ),
    Ensures(
      Res.size == log.size + 1,
      Res(Res.size - 1) == value,
      !!All(1 until Res.size)(k => Res(k - 1) <= Res(k))
    )
  )
  val longer: ISZ[Z] = log :+ value
  Deduce(
    1 (!!All(1 until log.size)(k => log(k - 1) <= log(k))) by Premise,
    2 ((log.size > 0) ->: (log(0) <= value)) by Premise,
    3 SubProof(
      4 Assume(!All(1 until longer.size)(k => longer(k - 1) <= longer(k))),
      5 SubProof(
        6 Assume(!All(1 until log.size)(k => log(k - 1) <= log(k))),
        7 (F) by NegE(6, 1)
      ),
      8 (All(1 until log.size)(k => log(k - 1) <= log(k))) by PbC(5),
      9 Let((place: Z) => SubProof(
        10 Assume(1 <= place & place < longer.size),
        11 (place < log.size | place == log.size) by Algebra(10),
        12 SubProof(
          13 Assume(place < log.size),
          14 (1 <= place & place < log.size) by Algebra(10, 13),
          15 (log(place - 1) <= log(place)) by AllE(8, 14),
          16 (longer(place - 1) <= longer(place)) by Algebra(14, 15)
        ),
        17 SubProof(
          18 Assume(place == log.size),
          19 (log(log.size - 1) <= value) by Algebra(2, 10, 18),
          20 (log(place - 1) <= value) by Subst_<(18, 19),
          21 (longer(place - 1) <= longer(place)) by Algebra(10, 18, 20)
        ),
        22 (longer(place - 1) <= longer(place)) by OrE(11, 12, 17)
      )),
      23 (All(1 until longer.size)(k => longer(k - 1) <= longer(k))) by AllI(9),
      24 (F) by NegE(23, 4)
    ),
    25 (!!All(1 until longer.size)(k => longer(k - 1) <= longer(k))) by NegI(3)
  )
  return longer
}

def peaks(readings: ISZ[Z]): ISZ[Z] = {
  Contract(
    Ensures(
      Res.size == readings.size,
      !!All(1 until Res.size)(k => Res(k - 1) <= Res(k))
    )
  )
  var log: ISZ[Z] = ISZ[Z]()
  var peak: Z = 0
  var turn: Z = 0
  Deduce(
    1 SubProof(
      2 Assume(!All(1 until log.size)(k => log(k - 1) <= log(k))),
      3 Let((place: Z) => SubProof(
        4 Assume(1 <= place & place < log.size),
        5 (log(place - 1) <= log(place)) by Algebra(4)
      )),
      6 (All(1 until log.size)(k => log(k - 1) <= log(k))) by AllI(3),
      7 (F) by NegE(6, 2)
    ),
    8 (!!All(1 until log.size)(k => log(k - 1) <= log(k))) by NegI(1)
  )
  while (turn < readings.size) {
    Invariant(
      Modifies(log, peak, turn),
      0 <= turn,
      turn <= readings.size,
      log.size == turn,
      (log.size > 0) ->: (log(log.size - 1) <= peak),
      !!All(1 until log.size)(k => log(k - 1) <= log(k))
    )
    if (readings(turn) > peak) {
      peak = readings(turn)
    }
    log = appended(log, peak)
    turn = turn + 1
  }
  return log
}
