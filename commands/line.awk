# Prints the line with this number.
NR == number {
    print shown($0)
    exit
}
