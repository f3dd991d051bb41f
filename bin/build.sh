# shellcheck shell=sh disable=SC2154
# Builds a program of the repository: sh build.sh NAME [setsid]. Called by ready of shared.sh, with the second word
# where this process leads a process group of its own.
bin=$(dirname "$0")
# shellcheck source=bin/shared.sh
. "$bin/shared.sh"
describe "$1"
group=${2-}
log=$target/$name.log
building=
room=

# One build at a time in one target/. What the build starts holds the lock too, so that none begins beside it.
lock() {
    if ! command -v flock >/dev/null; then
        say "flock is not on the path, so start no other call before this build has ended"
    elif ! flock -n 9; then
        say "waiting for another call's build, whose log is in $root/$logs"
        flock 9 &
        wait "$!" || say "the lock failed, so start no other call before this build has ended"
    fi
}

# Builds where no other call did it meanwhile. A program that was built gets the time of its mark, so that a source
# changed since is newer.
build() {
    ! current || return 0
    begin || { forget; return 1; }
    announce
    { "by_$tool" 2>&1; echo "ended $?"; } </dev/null | follow &
    if ! wait "$!"; then
        forget
        show_failure
    elif [ ! -x "$program" ]; then
        forget
        say "$tool ended well, but there is no $program: remove $root/$target, and call again"
    else
        touch -r "$mark" "$program" || :
        clear_up
        return 0
    fi
    return 1
}

# Marks the build, and makes a folder for temporary files: a prover that is killed leaves some.
begin() {
    building=yes
    if ! touch "$mark"; then
        say "$program is to be built, but no file can be made in $root/$target"
    elif ! room=$(mktemp -d) 2>/dev/null; then
        say "$program is to be built, but no temporary folder can be made in ${TMPDIR:-/tmp}"
    else
        TMPDIR=$room
        export TMPDIR
        return 0
    fi
    return 1
}

# rt proves, builds and runs a program in one, here on no input, where each of these programs ends well and writes
# nothing.
by_rt() {
    (cd "crates/$name" && rt run)
}

# cargo goes by times of modification alone, so it is made to compile all of the package. A server that it may start
# must not keep the lock.
by_cargo() {
    (cd "$package" && cargo_on clean --package "$name" && cargo_on build) 9>&-
}

# cargo_on COMMAND ARGUMENT..: cargo, on what is built in target/.
cargo_on() {
    cargo "$@" --release --offline --locked --target-dir target
}

# Says what is built and how long it takes.
announce() {
    if [ "$tool" = rt ]; then
        places=$(crates_below)
        total=$(printf '%s\n' "$places" | wc -l)
        total=$((total))
        say "$program is proved and built first: $total crates, some minutes where none is proved yet"
    else
        say "$program is built first: a few seconds"
    fi
}

# The crates of crates.txt that the program stands on, itself the last, in the order in which rt proves them: a line
# 'NUMBER NAME' for each. Libraries of the kit are not listed there, and behind a name there may be more words.
crates_below() {
    awk -v program="$name" '
        function visit(crate, words, n, i) {
            if (!(crate in needs) || crate in seen) return
            seen[crate] = 1
            n = split(needs[crate], words, " ")
            for (i = 1; i <= n; i++) visit(words[i])
            print ++place, crate
        }
        { sub(/#.*/, "") }
        split($0, part, ":") == 2 && split(part[1], head, " ") { needs[head[1]] = part[2] }
        END { visit(program) }
    ' crates.txt
}

# Writes what the tool says to the log, and shows a line for each crate that it proves, with the crate's place among
# all: rt says nothing of those that stay proved. It shows too what rt waits for. The last line has the tool's exit
# status, and this ends with it.
follow() {
    crate='' ended=2
    while IFS= read -r line; do
        case $line in
            'ended '*)
                ended=${line#ended }
                continue
                ;;
            'crate '*': modules '*)
                crate=${line#crate }
                crate=${crate%%:*}
                ;;
            logic=proved*) proved "$crate" ;;
            'rt: '*waiting\ for\ *) say "${line#rt: }" ;;
        esac
        printf '%s\n' "$line"
    done >"$log"
    return "$ended"
}

# proved CRATE: shows it, where it is one of those that the program stands on.
proved() {
    [ "$tool" = rt ] || return 0
    place=$(printf '%s\n' "$places" | grep -x "[0-9]* $1") || return 0
    say "${place%% *}/$total $1"
}

# Removes the program, so that the next call has it built again.
forget() {
    rm -f "$program"
    clear_up
}

# Removes what only a build under way needs.
clear_up() {
    rm -f "$mark"
    [ -z "$room" ] || rm -rf "$room" 2>/dev/null || { sleep 1; rm -rf "$room"; }
}

# Shows what failed, and names the log, which has all that the tool said.
show_failure() {
    lines=$(failures | head -n 10)
    tell "${lines:-$(tail -n 1 "$log")}"
    say "the build of $program failed, so it is not run: $root/$log has all that $tool said"
}

# The lines of the log that say what failed, the causes first: of what rt says itself, not what it chose or began.
failures() {
    causes <"$log"
    causes -v <"$log" | grep -e ': not proved$' -e '^rt: ' |
        grep -v -e '^rt: chose ' -e '^rt: running ' -e ': begins with ' -e 'waiting for '
}

# causes [-v]: of the lines on standard input those that name a cause, or the others.
causes() {
    grep -E "$@" -e '(^|[[:space:]])error(:|\[)' -e '^rattle: ' -e '[Nn]o space left'
}

# Ends the build, all that it started, and what it left.
stop() {
    trap '' TERM
    if [ -n "$group" ]; then kill -TERM 0; else kill "$!"; fi
    wait
    if [ -n "$building" ]; then
        forget
        rm -f "$log"
    fi
    exit 2
}

# cannot REASON [ADVICE]: nothing can be built. The program is run all the same where no source is newer, as in a copy
# of a repository that was built before.
cannot() {
    dated || refuse "$program is to be built, but $1${2-}"
    say "$program is run as it is: sources were copied or changed since it was built, none is newer, and $1"
    exit 0
}

cd "$root" || exit 2
for source in $needed; do
    [ -e "$source" ] || refuse "$program is to be built, but there is no $root/$source: call a script of a whole repository, or a link to it"
done
command -v "$tool" >/dev/null || cannot "$tool is not on the path"
if [ ! -d "$target" ] && { [ -e "$target" ] || [ -h "$target" ]; }; then
    refuse "$program is to be built, but $root/$target is no folder: remove it, and call again"
fi
{ mkdir -p "$target" && [ -w "$target" ] && true 9<>"$lock_file"; } 2>/dev/null ||
    cannot "$root/$target cannot be written" ": take a copy of the repository that you may write"
trap stop TERM
{ lock && build; } 9<>"$lock_file" || exit 2
