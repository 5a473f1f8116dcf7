# Prints the reading of a line. `row` is what the program printed for it: the number, the template's line or 0, start and length of nine
# pieces, the places and the bytes. The first file is the text, the second has the line.
BEGIN {
    split(row, field, " ")
    at = field[2]
}

FNR == NR && FNR == 1 {
    end_mark = substr($0, 1, 1)
    placeholder = substr($0, 2, 1)
}

FNR == NR && FNR == at {
    end = index($0, end_mark)
    template = end ? substr($0, 1, end - 1) : $0
}

FNR < NR {
    line = $0
}

# How many placeholders the template has.
function count_holes(    i, n) {
    n = 0
    for (i = 1; i <= length(template); i++) {
        n += substr(template, i, 1) == placeholder
    }
    return n
}

END {
    print "line: \"" shown(line) "\""
    if (at == 0) {
        print "no template catches it"
    } else {
        print "caught by line " at ": " shown(template)
        holes = count_holes()
        for (i = 1; i <= holes; i++) {
            print i ": \"" shown(substr(line, field[2 * i + 1] + 1, field[2 * i + 2])) "\""
        }
    }
    print "places " field[21] ", bytes " field[22]
}
