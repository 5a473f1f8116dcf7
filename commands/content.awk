# Prints the content of the line with this number: what precedes the first mark 1. The status is 1 where there is no such line.
NR == 1 {
    mark = substr($0, 1, 1)
}

NR == number {
    end = mark == "" ? 0 : index($0, mark)
    print end ? substr($0, 1, end - 1) : $0
    found = 1
    exit
}

END {
    exit !found
}
