def f(): Z = {
  return y
}
