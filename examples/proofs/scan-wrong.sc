// The last reading is never looked at.
// The invariant is claimed as !!All(..), not as All(..): so it is no fact that is applied to each place, and only a proof opens it.
def firstAbove(readings: ISZ[Z], limit: Z): Z = {
  Contract(
    Ensures(
      0 <= Res,
      Res <= readings.size,
      All(0 until Res)(k => readings(k) <= limit),
      (Res < readings.size) ->: (readings(Res) > limit)
    )
  )
  var at: Z = 0
  Deduce(
    1 SubProof(
      2 Assume(!All(0 until at)(k => readings(k) <= limit)),
      3 Let((place: Z) => SubProof(
        4 Assume(0 <= place & place < at),
        5 (readings(place) <= limit) by Algebra(4)
      )),
      6 (All(0 until at)(k => readings(k) <= limit)) by AllI(3),
      7 (F) by NegE(6, 2)
    ),
    8 (!!All(0 until at)(k => readings(k) <= limit)) by NegI(1)
  )
  while (at + 1 < readings.size && readings(at) <= limit) {
    Invariant(
      Modifies(at),
      0 <= at,
      at <= readings.size,
      !!All(0 until at)(k => readings(k) <= limit)
    )
    Deduce(
      1 (!!All(0 until at)(k => readings(k) <= limit)) by Premise,
      2 (readings(at) <= limit) by Auto,
      3 SubProof(
        4 Assume(!All(0 until at + 1)(k => readings(k) <= limit)),
        5 SubProof(
          6 Assume(!All(0 until at)(k => readings(k) <= limit)),
          7 (F) by NegE(6, 1)
        ),
        8 (All(0 until at)(k => readings(k) <= limit)) by PbC(5),
        9 Let((place: Z) => SubProof(
          10 Assume(0 <= place & place < at + 1),
          11 (place < at | place == at) by Algebra(10),
          12 SubProof(
            13 Assume(place < at),
            14 (0 <= place & place < at) by Algebra(10, 13),
            15 (readings(place) <= limit) by AllE(8, 14)
          ),
          16 SubProof(
            17 Assume(place == at),
            18 (readings(place) <= limit) by Subst_<(17, 2)
          ),
          19 (readings(place) <= limit) by OrE(11, 12, 16)
        )),
        20 (All(0 until at + 1)(k => readings(k) <= limit)) by AllI(9),
        21 (F) by NegE(20, 4)
      ),
      22 (!!All(0 until at + 1)(k => readings(k) <= limit)) by NegI(3)
    )
    at = at + 1
  }
  Deduce(
    1 (!!All(0 until at)(k => readings(k) <= limit)) by Premise,
    2 SubProof(
      3 Assume(!All(0 until at)(k => readings(k) <= limit)),
      4 (F) by NegE(3, 1)
    ),
    5 (All(0 until at)(k => readings(k) <= limit)) by PbC(2)
  )
  return at
}

def alarm(readings: ISZ[Z], limit: Z): B = {
  Contract(
    Ensures(
      Res ->: Exists(readings.indices)(k => readings(k) > limit),
      !Res ->: All(readings.indices)(k => readings(k) <= limit)
    )
  )
  val at: Z = firstAbove(readings, limit)
  val raised: B = at < readings.size
  Deduce(
    1 SubProof(
      2 Assume(raised),
      3 (0 <= at & at < readings.size) by Auto,
      4 (readings(at) > limit) by Auto,
      5 (Exists(readings.indices)(k => readings(k) > limit)) by ExistsI(3, 4)
    ),
    6 (raised ->: Exists(readings.indices)(k => readings(k) > limit)) by ImplyI(1),
    7 SubProof(
      8 Assume(!raised),
      9 Let((other: Z) => SubProof(
        10 Assume(0 <= other & other < readings.size),
        11 (readings(other) <= limit) by Auto
      )),
      12 (All(readings.indices)(k => readings(k) <= limit)) by AllI(9)
    ),
    13 (!raised ->: All(readings.indices)(k => readings(k) <= limit)) by ImplyI(7)
  )
  return raised
}
