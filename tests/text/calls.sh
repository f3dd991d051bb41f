# shellcheck shell=bash disable=SC2154
# What the scripts of bin/ take and say. Part of tests/text/scripts.sh, whose repository and helpers it uses.

cut_sentence='11 bytes are no multiple of 8, so it ends with a cut record'
looks_sentence='it looks like a text, of which tracetext encode makes a trace'
text_sentence="5 bytes are no multiple of 8, so it ends with a cut record; $looks_sentence"
lost_sentence='it cannot be found: there is no such file, or a folder on its way may not be searched'
folder=$work/'some where'
mkdir -p "$folder/sub"
printf 'a b\nc' >"$folder/a.text"
printf 'enable 1' >"$folder/e"

# here STATUS SCRIPT ARGUMENT..: a call from the folder of these tests.
here() {
    local status=$1 script=$2
    shift 2
    (cd "$folder" && call "$status" "$repository/bin/$script" "$@")
}

# From another folder, through a symbolic link to a symbolic link, with a file named from that folder.
from_another_folder() (
    mkdir -p "$work/else where" && cd "$work/else where" || exit 1
    ln -sf "$root/bin/tracetext" one && ln -sf one two && cp "$root/examples/aged.trace" . || exit 1
    ./two decode aged.trace >text && "$root/bin/tracetext" encode <text | cmp - aged.trace
)

# The script's status and output are the program's.
passes_errors_on() {
    echo 'draw 1' | call 1 bin/tracetext encode && printed '' && grep -q '^tracetext: standard input: line 1: unknown word draw' "$errors"
}

# Help needs no build: there is nothing to build with.
helps() {
    local script
    fresh
    for script in mmutrace mmureport tracetext; do
        bare 0 "$repository/bin/$script" --help && said '' && grep -q "^usage: $script " "$out" || return 1
    done
    bare 0 "$repository/bin/tracetext" encode --help && said '' && grep -q '^usage: tracetext ' "$out" || return 1
    [ -z "$(find "$repository/crates" -name out)" ]
}

# A file by its name is the same as on standard input; the name may be any.
takes_a_file() {
    local name
    built || return 1
    for name in whole.trace 'a b' $'a\nb' '*' ./-x ./- ./--help; do
        cp "$work/whole.trace" "$folder/$name"
        here 7 mmutrace "$name" </dev/null && printed $'arguments:\n'"$whole" && said '' || return 1
    done
    here 7 mmutrace -- -x </dev/null && printed $'arguments:\n'"$whole" && said '' &&
        printf 'input' | here 7 mmutrace - && printed $'arguments:\ninput' && said ''
}

# refuses SENTENCE ARGUMENT..: bin/mmutrace ends with status 2, prints nothing, and says this first.
refuses() {
    local sentence=$1
    shift
    here 2 mmutrace "$@" && printed '' && head -n 1 "$errors" | grep -qxF "mmutrace: $sentence"
}

# What is wrong is said at once: nothing is built before.
refuses_calls() {
    fresh
    refuses "none.trace: $lost_sentence" none.trace </dev/null &&
        refuses "a?b.trace: $lost_sentence" $'a\eb.trace' </dev/null &&
        refuses ": $lost_sentence" '' </dev/null &&
        refuses 'sub: this is a folder, not a trace' sub </dev/null &&
        refuses 'standard input: this is a folder, not a trace' <"$folder" &&
        refuses 'it reads one trace, and 2 names are given' a b </dev/null && grep -q '^usage: mmutrace ' "$errors" &&
        refuses 'there is no option -v' -v </dev/null && grep -q '^usage: mmutrace ' "$errors" &&
        refuses 'standard input is closed: give the name of a trace file' <&- &&
        refuses 'standard input is closed: give the name of a trace file' - <&- && [ "$(builds)" -eq 0 ]
}

# A link that leads nowhere and a name that is too long are not said to be missing.
refuses_lost_files() {
    local long
    fresh && long=$(printf '%0300d' 0) && ln -sf nowhere "$folder/link" && refuses "link: $lost_sentence" link </dev/null &&
        refuses "$long: $lost_sentence" "$long" </dev/null
}

# A text of which the length is that of a trace.
says_text() {
    built && here 7 mmutrace e </dev/null && printed $'arguments:\nenable 1' && said "mmutrace: e: $looks_sentence
" && here 7 mmutrace <"$folder/e" && printed $'arguments:\nenable 1' && said "mmutrace: standard input: $looks_sentence
" && : >"$folder/empty" && here 7 mmutrace empty </dev/null && said ''
}

# Of standard input that was read in part the rest counts: its length, and whether it looks like a text.
says_rest() {
    built && printf '\0012345abcdefgh' >"$folder/begun" || return 1
    (read -rN 5 _ && here 7 mmutrace) <"$folder/begun" && printed $'arguments:\nabcdefgh' && said "mmutrace: standard input: $looks_sentence
" && (read -rN 8 _ && here 7 mmutrace) <"$folder/begun" && printed $'arguments:\ndefgh' && said "mmutrace: standard input: $text_sentence
" && (read -rN 13 _ && here 7 mmutrace) <"$folder/begun" && said ''
}

# A cut record is legal: it is said, and the program gets every byte.
says_cut() {
    built && here 7 mmutrace ../cut.trace </dev/null && cmp <(tail -n +2 "$out") "$work/cut.trace" && said "mmutrace: ../cut.trace: $cut_sentence
" && here 7 mmutrace <"$work/cut.trace" && cmp <(tail -n +2 "$out") "$work/cut.trace" && said "mmutrace: standard input: $cut_sentence
" && here 7 mmutrace a.text </dev/null && said "mmutrace: a.text: $text_sentence
" && here 7 mmutrace <"$folder/a.text" && printed $'arguments:\na b\nc' && said "mmutrace: standard input: $text_sentence
" && here 7 mmutrace </dev/null && said '' && printf 'piece' | here 7 mmutrace && printed $'arguments:\npiece' && said ''
}

on_a_terminal() {
    built && call 7 python3 tests/text/terminal.py type abcdefgh "$repository/bin/mmutrace" && printed $'arguments:\nabcdefgh' &&
        said $'mmutrace: records of 8 bytes are read from this terminal, up to Ctrl-D. For those of a file: mmutrace FILE\n' &&
        call 7 python3 tests/text/terminal.py type abcdefgh "$repository/bin/mmutrace" "$work/whole.trace" && said ''
}

# closed DIRECTION KIND: bin/tracetext refuses a standard input that is closed.
closed() {
    local end
    for end in '' -; do
        # shellcheck disable=SC2086 # no end, no word
        call 2 "$repository/bin/tracetext" "$1" $end <&- && printed '' &&
            said "tracetext: standard input is closed: give the name of a $2 file
" || return 1
    done
}

# typed_to DIRECTION WHAT: bin/tracetext says what it reads from a terminal.
typed_to() {
    call 7 python3 tests/text/terminal.py type abc "$repository/bin/tracetext" "$1" && printed "arguments: <$1>
abc" && said "tracetext: $2 read from this terminal, up to Ctrl-D. For those of a file: tracetext $1 FILE
" && call 7 python3 tests/text/terminal.py type abc "$repository/bin/tracetext" "$1" "$work/whole.trace" && said ''
}

tracetext_input() {
    fresh && rm -rf "$repository/tools/tracetext/target" && closed encode text && closed decode trace &&
        [ ! -e "$repository/tools/tracetext/target" ] && call 7 "$repository/bin/tracetext" encode name <&- &&
        typed_to encode 'lines of a text are' && typed_to decode 'records of 8 bytes are' &&
        echo 'enable 1' | bin/tracetext encode - | bin/tracetext decode - | grep -qx 'enable 1'
}

report_without_names() {
    fresh && here 2 mmureport </dev/null && printed '' && [ "$(builds)" -eq 0 ] &&
        head -n 2 "$errors" | cut -d ' ' -f 1-3 | diff - <(printf 'mmureport: no trace\nusage: mmureport FILE..\n')
}

# All names go to the program as they are, and those that cannot be a trace are said.
report_with_names() {
    built && cp "$work/cut.trace" "$folder/-" && cp "$work/cut.trace" "$folder/-c" && rm -f "$folder/pipe" && mkfifo "$folder/pipe" &&
        here 7 mmureport a.text '' pipe sub - none 'a b' -c ../cut.trace --help $'a\nb' whole.trace </dev/null &&
        printed $'arguments: <a.text> <> <pipe> <sub> <-> <none> <a b> <-c> <../cut.trace> <--help> <a\nb> <whole.trace>\n' &&
        said "mmureport: a.text: $text_sentence
mmureport: : $lost_sentence
mmureport: sub: this is a folder, not a trace
mmureport: -: $cut_sentence
mmureport: none: $lost_sentence
mmureport: -c: $cut_sentence
mmureport: ../cut.trace: $cut_sentence
" && here 7 mmureport ./--help </dev/null && printed $'arguments: <./--help>\n' &&
        rm "$folder/-" && here 7 mmureport - -c whole.trace </dev/null && said "mmureport: -: $lost_sentence
mmureport: -c: $cut_sentence
"
}

# Whether a file looks like a text is asked of each by itself, whatever stands beside it. A pipe keeps what it holds.
report_with_texts() {
    local long held
    long=$(printf '%0100d' 0) && built && printf '%s' "$long" >"$folder/long" && printf '%064d\0012345678' 0 >"$folder/later" &&
        printf '%063d\1' 0 >"$folder/last" && : >"$folder/empty" && printf 'enable 1' >"$folder/-" && cp "$folder/e" "$folder/a
e" && rm -f "$folder/pipe" && mkfifo "$folder/pipe" && exec {held}<>"$folder/pipe" && echo held >&"$held" &&
        here 7 mmureport whole.trace e pipe long empty last $'a\ne' /dev/zero later ../cut.trace - /dev/null -c sub e </dev/null &&
        said "mmureport: e: $looks_sentence
mmureport: long: 100 bytes are no multiple of 8, so it ends with a cut record; $looks_sentence
mmureport: a?e: $looks_sentence
mmureport: later: $looks_sentence
mmureport: ../cut.trace: $cut_sentence
mmureport: -: $looks_sentence
mmureport: -c: $cut_sentence
mmureport: sub: this is a folder, not a trace
mmureport: e: $looks_sentence
" && read -r -t 1 -u "$held" long && [ "$long" = held ] && exec {held}>&- &&
        here 7 mmureport /dev/stdin ../cut.trace whole.trace <"$work/whole.trace" && said "mmureport: ../cut.trace: $cut_sentence
"
}

# Of many files that are no traces ten are named, and the others counted.
report_with_many_texts() {
    local names
    built && names=$(printf 'e %.0s' {1..9}) || return 1
    # shellcheck disable=SC2086 # the names are words
    here 7 mmureport $names none </dev/null && [ "$(wc -l <"$errors")" -eq 10 ] && here 7 mmureport $names none a.text sub whole.trace </dev/null &&
        [ "$(wc -l <"$errors")" -eq 11 ] && tail -n 2 "$errors" | diff - <(printf 'mmureport: none: %s\nmmureport: more such files: 2\n' "$lost_sentence")
}

# A name that is not ASCII is handed on by a link, which is gone afterwards; the others are handed on as they are.
report_with_links() {
    local odd=$'\377 \n.trace'
    mkdir -p "$work/links" && built && cp "$work/whole.trace" "$folder/$odd" &&
        (cd "$folder" && call 7 env TMPDIR="$work/links" "$repository/bin/mmureport" whole.trace "$odd" whole.trace </dev/null) && said '' &&
        grep -q -E "^arguments: <whole.trace> <$work/links/[^/]*/2> <whole.trace>\$" "$out" && [ -z "$(ls "$work/links")" ]
}

# Where all is well, the number of processes does not grow with the number of names.
report_with_many_names() {
    local tool
    mkdir -p "$work/counted" "$folder/many" && rm -f "$work/processes"
    for tool in "$work/no tools"/*; do
        printf '#!/bin/sh\necho %s >>"%s"\nexec "%s" "$@"\n' "${tool##*/}" "$work/processes" "$(readlink "$tool")" >"$work/counted/${tool##*/}"
    done
    chmod +x "$work/counted"/* && (cd "$folder/many" && for i in {1..200}; do cp "$work/whole.trace" "$i"; done) && built &&
        call 7 env PATH="$work/counted" "$repository/bin/mmureport" "$folder/many"/* </dev/null && said '' &&
        [ "$(wc -l <"$work/processes")" -lt 20 ]
}

verdict "bin/tracetext works from another folder" from_another_folder
verdict "bin/tracetext passes status and messages on" passes_errors_on
verdict "the scripts help, without a build" helps
verdict "bin/mmutrace takes the name of a file" takes_a_file
verdict "bin/mmutrace says what is wrong with a call" refuses_calls
verdict "bin/mmutrace does not say that there is no file where it cannot know" refuses_lost_files
verdict "bin/mmutrace says where the last record is cut" says_cut
verdict "bin/mmutrace says what looks like a text" says_text
verdict "bin/mmutrace looks at the rest of standard input" says_rest
verdict "bin/mmutrace says that it reads a terminal" on_a_terminal
verdict "bin/tracetext says what it reads, and refuses a closed input" tracetext_input
verdict "bin/mmureport says that no file is named" report_without_names
verdict "bin/mmureport says which files are no traces" report_with_names
verdict "bin/mmureport says which files look like texts" report_with_texts
verdict "bin/mmureport counts what it does not name" report_with_many_texts
verdict "bin/mmureport hands names that are not ASCII on by links" report_with_links
verdict "bin/mmureport starts no process for each of many names" report_with_many_names
