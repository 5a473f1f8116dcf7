# What the commands share. A command says its name (`name`) and its folder (`home`), and then reads this file.
#
# Where the folder has a crates.txt, it is the repository: programs lie in target/bin, and are proved and built on first use and again where
# their sources are newer. Otherwise it is a package, with its programs in bin.
#
# The exit status is the number that is answered. A status of 100 or more says that there is none, and a line on standard error says why.
wrong_call=100
not_built=101
text_unread=102
no_folder=103
broke_off=104
output_unwritten=105
file_unwritten=106

# One more byte than a text may have, so that a text that is too large is seen to be.
read_most=65537

# Where a reader is gone, what writes to it fails, and is answered as what cannot be written. The signal alone would end the shell and leave
# its folder.
trap : PIPE

tell() {
    printf '%s\n' "$name: $1" >&2
}

fail() {
    tell "$2"
    exit "$1"
}

# Runs what writes to standard output.
print() {
    "$@" 2>/dev/null || fail "$output_unwritten" "standard output cannot be written"
}

say_version() {
    printf '%s\n' "$name (Tumbayog) $(cat "$home/VERSION")"
}

refuse_option() {
    fail "$wrong_call" "unknown option $1; ./$name --help says how it is called"
}

# What all commands answer in the same way: an option that stands alone, or one that none has.
answer_option() {
    case "$1" in
        --help) print say_help ;;
        --version) print say_version ;;
        *) refuse_option "$1" ;;
    esac
    exit 0
}

# A folder of this call's own, which is removed with it. A signal does not come between its making and the name of it, nor into the removal.
make_folder() {
    folder=
    trap 'trap "" HUP INT QUIT TERM; rm -rf "$folder"' EXIT
    trap 'exit 129' HUP
    trap 'exit 130' INT
    trap 'exit 131' QUIT
    trap 'exit 143' TERM
    folder=$(trap '' HUP INT QUIT TERM && mktemp -d 2>/dev/null) || fail_folder
    case "$folder" in /*) ;; *) folder=$PWD/$folder ;; esac
    test_room
}

fail_folder() {
    fail "$no_folder" "no temporary file can be made"
}

# More bytes than a call writes there: the text and the line, what the program prints, that in two parts, and what goes to files.
room=400000

# Whether the folder has room, so that no file in it is cut.
test_room() {
    { head -c "$room" /dev/zero >"$folder/room"; } 2>/dev/null || fail_folder
    rm "$folder/room"
}

# Whether standard output is open, before anything is done. What is duplicated onto itself is not tested by a shell.
test_output() {
    { true 3>&1; } 2>/dev/null || fail "$output_unwritten" "standard output cannot be written"
}

# Whether a source is newer than the program, or the program is missing.
is_outdated() {
    newer=$(find "$home/crates.txt" "$home"/crates/*/src "$home"/crates/*/specs "$home"/crates/*/proofs \
        -type f -newer "$program" 2>&1)
    [ -n "$newer" ]
}

prove_program() {
    tell "proving and building the program, which takes some minutes where little is proved yet"
    log=$("$home/tools/build" "$1" 2>&1) || {
        printf '%s\n' "$log" >&2
        fail "$not_built" "the program is not proved"
    }
}

# One call builds, and others that want the same wait for it.
build_program() {
    is_outdated || return 0
    mkdir -p "$home/target" || exit "$not_built"
    (
        flock 9
        is_outdated || exit 0
        prove_program "$1"
    ) 9>"$home/target/building" || exit "$not_built"
}

# Sets `program` to the program of this name.
find_program() {
    if [ -f "$home/crates.txt" ]; then
        program=$home/target/bin/$1
        build_program "$1"
    else
        program=$home/bin/$1
    fi
    [ -x "$program" ] || fail "$not_built" "$program is missing, or may not be run"
    for part in commands/content.awk commands/line.awk commands/shown.awk commands/why.awk docs/NUMBERS.md; do
        [ -r "$home/$part" ] || fail "$not_built" "$home/$part is missing"
    done
}

# Copies the text of a file, or of standard input where no file is named, to the call's folder: a pipe can be read once, and what is shown
# of a text is to be what was run.
read_text() {
    if [ $# -eq 0 ]; then
        { head -c "$read_most" >"$folder/text"; } 2>/dev/null || fail "$text_unread" "standard input cannot be read"
    else
        { head -c "$read_most" <"$1" >"$folder/text"; } 2>/dev/null || fail "$text_unread" "$1 cannot be read"
    fi
}

# Runs the program in the call's folder, whose name need not be UTF-8. What it says goes to standard error; what it prints stays there, where
# its number is read. A program ends with status 0, unless it cannot run on this machine, and says why, or is killed; a shell says how, some
# where the program's messages go and some on their own standard error.
run_program() {
    (
        cd "$folder" && "$program" "$@" <text >printed 2>said
        exit $?
    ) 2>/dev/null || fail "$broke_off" "the program broke off$(sed -n '1s/^/: /p' "$folder/said")"
    cat "$folder/said" >&2
}

# One line on standard error for a number other than 0: the number, its words in the table of numbers, and the line that it names.
tell_number() {
    [ "$1" -ne 0 ] || return 0
    words=$(sed -n "s/^| $1 | \([^|]*[^| ]\) *|.*/\1/p" "$home/docs/NUMBERS.md")
    place=
    if [ "$2" -ne 0 ]; then
        line=$(LC_ALL=C awk -v number="$2" -f "$home/commands/shown.awk" -f "$home/commands/line.awk" "$folder/text")
        place="; line $2${line:+: $line}"
    fi
    tell "$1: $words$place"
}
