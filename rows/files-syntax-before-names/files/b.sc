def g( = {
}
