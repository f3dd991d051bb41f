# shellcheck shell=sh disable=SC2034,SC2154
# Shared by the scripts of this folder, each of which runs a program of the repository and has it built first where
# needed. A script sets `bin` to this folder, calls describe, looks at its arguments, calls ready and runs the program.
# What a script says goes to standard error, and status 2 says that it refused. Closed, standard error is /dev/null.
true 9>&2 || exec 2>/dev/null
root=$(dirname "$bin")
RECORD_BYTES=8
FOLDER="this is a folder, not a trace"
# So many bytes of a file are looked at.
FIRST_BYTES=64

# describe NAME: sets what is known of a program. Paths are from the root: `target` is where the tool leaves what it
# makes, and `sources` is what the program is made from, as patterns. Programs that stand on the same crates have one
# lock: a file that is always there, and that goes neither with what is built nor with an edit of the sources.
describe() {
    name=$1
    if [ "$name" = tracetext ]; then
        package=tools/tracetext
        tool=cargo target=$package/target lock_file=bin/tracetext
        program=$target/release/tracetext
        needed="$package/Cargo.toml $package/Cargo.lock $package/src"
        sources=$needed logs=$target
    else
        tool=rt target=crates/$name/out logs='crates/*/out' lock_file=bin/build.sh
        program=$target/$name
        needed="crates crates.txt crates/$name"
        sources="crates.txt crates/*/src crates/*/specs crates/*/proofs"
    fi
    # It is there while a build is under way, and where one was killed.
    mark=$target/.$name.began
}

# say WORD..: a sentence to the user. Names may have any character, so those that disturb a terminal are replaced.
say() {
    tell "$name: $(printf '%s' "$*" | LC_ALL=C tr '[:cntrl:]' '?')"
}

# tell LINES: writes them to standard error. cat does it, so that a reader that is gone ends cat, and not the script.
tell() {
    printf '%s\n' "$1" | cat >&2 || :
}

refuse() {
    say "$@"
    exit 2
}

# Is the program there, its build whole, and no source changed since? A source that was copied in with an older time
# of its own shows by its change time alone.
current() {
    no_source -newer "$program" -o -cnewer "$program"
}

# Is the program there and whole, and no source newer? A copy of the repository may leave nothing else to go by.
dated() {
    no_source -newer "$program"
}

# no_source TEST..: is the program there, its build whole, and does no source pass the test of find? A folder is newer
# where a file was removed from it. What find stumbles over counts as a source that does.
no_source() (
    # shellcheck disable=SC2086 # sources are patterns
    cd "$root" && [ -x "$program" ] && [ ! -e "$mark" ] && [ -z "$(find $sources \( "$@" \) -print 2>&1 | head -n 1)" ]
)

# Has the program built where it is not current. The build leads a process group of its own where setsid is there,
# so that an interrupt can end all of it.
ready() {
    ! current || return 0
    group=setsid
    command -v setsid >/dev/null || group=
    for signal in HUP INT QUIT TERM; do
        # shellcheck disable=SC2064 # each trap has its own signal
        trap "interrupted $signal" "$signal"
    done
    # shellcheck disable=SC2086 # no group, no word
    $group sh "$bin/build.sh" "$name" $group </dev/null >&2 &
    wait "$!" || exit 2
    trap - HUP INT QUIT TERM
}

# interrupted SIGNAL: stops the build, and ends as the signal would have ended this script.
interrupted() {
    trap '' HUP INT QUIT TERM
    kill "$!" 2>/dev/null
    wait
    say "interrupted: $program is not built"
    trap - "$1"
    kill -s "$1" "$$"
    exit 2
}

# unreadable FILE: sets `why` to what keeps a file from being read. It opens none: a pipe would lose what it holds.
unreadable() {
    if [ -d "$1" ]; then
        why=$FOLDER
    elif [ ! -e "$1" ]; then
        why="it cannot be found: there is no such file, or a folder on its way may not be searched"
    elif [ ! -r "$1" ]; then
        why="you may not read this file"
    else
        return 1
    fi
}

# needs_input WHAT: refuses where standard input is closed, and asks for a file of this kind.
needs_input() {
    { true 9<&0; } 2>/dev/null || refuse "standard input is closed: give the name of a $1 file"
}

# greet WHAT CALL: where standard input is a terminal, says what is read from there, and which call reads a file.
greet() {
    [ ! -t 0 ] || say "$1 read from this terminal, up to Ctrl-D. For those of a file: $2 FILE"
}

# Turns each byte into a letter: c for a control character that no text has, else t. Every well-formed record has a c.
letters() {
    LC_ALL=C tr -c '\0-\10\13\14\16-\37\177' t | LC_ALL=C tr -c t c
}

# doubted BYTES LETTERS: sets `why` to what speaks against a trace of so many bytes that begins with these letters.
doubted() {
    why=
    [ $(($1 % RECORD_BYTES)) -eq 0 ] ||
        why="$1 bytes are no multiple of $RECORD_BYTES, so it ends with a cut record"
    case $2 in
        '' | *c*) ;;
        *) why="${why:+$why; }it looks like a text, of which tracetext encode makes a trace" ;;
    esac
    [ -n "$why" ]
}
