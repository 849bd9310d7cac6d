// #Sireum #Logika
import org.sireum._

@datatype class Valve(isOpen: B, flow: Z)

@datatype class Burn(length: Z, rate: Z)

val maxRate: Z = 10
var fuel: Z = 1000

def clamp(rate: Z): Z = {
  Contract(
    Requires(rate >= 0),
    Ensures(0 <= Res, Res <= maxRate, Res <= rate)
  )
  var r: Z = rate
  if (r > maxRate) {
    r = maxRate
  }
  return r
}

def plan(rate: Z): Burn = {
  Contract(
    Requires(rate >= 0),
    Ensures(Res.rate >= 0, Res.rate <= maxRate, Res.length == 1)
  )
  val r: Z = clamp(rate)
  return Burn(1, r)
}

def spend(b: Burn): Unit = {
  Contract(
    Requires(b.rate >= 0, b.rate <= fuel),
    Modifies(fuel),
    Ensures(fuel == In(fuel) - b.rate, fuel >= 0)
  )
  fuel = fuel - b.rate
}

def closeAll(vs: ISZ[Valve]): ISZ[Valve] = {
  Contract(
    Ensures(Res.size == vs.size, All(Res.indices)(k => !Res(k).isOpen))
  )
  var done: ISZ[Valve] = vs
  var i: Z = 0
  while (i < done.size) {
    Invariant(
      Modifies(done, i),
      0 <= i,
      i <= done.size,
      done.size == vs.size,
      All(0 until i)(k => !done(k).isOpen)
    )
    done = done(i ~> Valve(F, 0))
    i = i + 1
  }
  return done
}

def ready(vs: ISZ[Valve], k: Z): B = {
  Contract(
    Requires(0 <= k, k < vs.size),
    Ensures(Res == !vs(k).isOpen)
  )
  return !vs(k).isOpen
}

def step(vs: ISZ[Valve], rate: Z): Z = {
  Contract(
    Requires(rate >= 0, fuel >= maxRate),
    Modifies(fuel),
    Ensures(fuel >= 0, Res <= In(fuel))
  )
  val b: Burn = plan(rate)
  spend(b)
  val shut: ISZ[Valve] = closeAll(vs)
  assert(shut.size == vs.size)
  return fuel
}
