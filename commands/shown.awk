# A text as a message shows it: at most 200 bytes of it, no character cut in two, and as escapes what cannot be seen or not be told apart. That
# is control bytes, bytes that are no UTF-8, and of its characters control characters, other blanks than the byte 32, soft hyphens, combining
# accents, characters without width, signs of direction, and the byte-order mark.
BEGIN {
    for (code = 1; code < 256; code++) {
        byte_of[code] = sprintf("%c", code)
        code_of[byte_of[code]] = code
    }
    hide("", 1, 31)
    hide("", 127, 127)
    hidden["\t"] = "\\t"
    hidden["\r"] = "\\r"
    hide(byte_of[194], 128, 160)
    hide(byte_of[194], 173, 173)
    hide(byte_of[204], 128, 191)
    hide(byte_of[205], 128, 175)
    hide(byte_of[226] byte_of[128], 128, 143)
    hide(byte_of[226] byte_of[128], 168, 175)
    hide(byte_of[226] byte_of[129], 159, 175)
    hide(byte_of[227] byte_of[128], 128, 128)
    hide(byte_of[239] byte_of[187], 191, 191)
}

# Hides the characters of these first bytes and a last one from one code to another.
function hide(first, from, to,    code) {
    for (code = from; code <= to; code++) {
        hidden[first byte_of[code]] = escaped(first byte_of[code])
    }
}

function escaped(bytes,    at, result) {
    for (at = 1; at <= length(bytes); at++) {
        result = result sprintf("\\%03o", code_of[substr(bytes, at, 1)])
    }
    return result
}

# How many bytes the character has that begins there, or 0 where none does.
function character_length(text, at,    first, second, n, i) {
    first = code_of[substr(text, at, 1)]
    if (first < 128) {
        return 1
    }
    second = code_of[substr(text, at + 1, 1)]
    if (first < 194 || 244 < first || first == 224 && second < 160 || first == 237 && 159 < second ||
        first == 240 && second < 144 || first == 244 && 143 < second) {
        return 0
    }
    n = first < 224 ? 2 : first < 240 ? 3 : 4
    for (i = 1; i < n; i++) {
        if (substr(text, at + i, 1) !~ /[\200-\277]/) {
            return 0
        }
    }
    return n
}

function shown(text,    end, at, n, character, result) {
    end = length(text)
    if (200 < end) {
        end = 200
        while (196 < end && substr(text, end + 1, 1) ~ /[\200-\277]/) {
            end--
        }
    }
    text = substr(text, 1, end) (end < length(text) ? " .." : "")
    for (at = 1; at <= length(text); at += length(character)) {
        n = character_length(text, at)
        character = substr(text, at, n ? n : 1)
        result = result (n == 0 ? escaped(character) : (character in hidden) ? hidden[character] : character)
    }
    return result
}
