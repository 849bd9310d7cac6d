def h(): Unit = {
  match
}
