# shellcheck shell=bash disable=SC2154
# The scripts of bin/, tried from other folders. Part of tests/text/check, whose verdict() and variables it uses.
# They are tried in a repository of their own, with an rt and a cargo that build small programs.

repository="$work/a repository"
mkdir -p "$repository/crates/low"/{src,specs,proofs,must-fail} "$repository"/crates/{side,other,middle,mmutrace,mmureport}/src \
    "$repository/tools/tracetext/src" "$work/path" "$work/no tools" "$work/temporary"
cp -R bin "$repository"
echo a >"$repository/crates/low/src/file"
cat >"$repository/crates.txt" <<'TEXT'
# A comment: of no crate.
low may_wait=2:
mmureport: csv middle other
mmutrace: middle
side: low
other: low # other
middle: low side io
TEXT
cp tools/tracetext/src/usage.txt "$repository/tools/tracetext/src"
touch "$repository/tools/tracetext/Cargo.toml" "$repository/tools/tracetext/Cargo.lock"

# A folder of tools by name, without rt, cargo and flock.
for tool in sh dirname readlink find head tail mkdir mktemp touch rm cat sleep chmod setsid stat tr wc awk grep xargs; do
    ln -s "$(command -v "$tool")" "$work/no tools/$tool" || exit 2
done

# What both write as a program: it prints its arguments, then its input.
cat >"$work/program" <<'TEXT'
#!/bin/sh
printf 'arguments:'
[ $# -eq 0 ] || printf ' <%s>' "$@"
echo
cat
exit 7
TEXT

# This rt eats standard input, says what the true one says, and counts its calls. As the true one it keeps each library
# by a stamp, says nothing of one that stays proved, and leaves a program where nothing changed; it breaks where two run
# at once. Files beside the repository tell it to fail with the lines of that file, to leave a program as it is, to
# change a source, to hold on, to say that it waits, or to leave half a library and half a program and then take long.
cat >"$work/path/rt" <<'TEXT'
#!/bin/sh
[ "$*" = run ] || exit 9
program=${PWD##*/}
case $program in
    mmutrace) crates='low side middle mmutrace' ;;
    mmureport) crates='low side middle other mmureport' ;;
    *) exit 9 ;;
esac
cd ../..
[ -f crates.txt ] || exit 9
cat
made=crates/$program/out/$program
mkdir -p crates/$program/out
if ! mkdir ../running 2>/dev/null; then
    echo 'rt: two run at once'
    exit 2
fi
echo built >>../builds
[ ! -e ../wait ] || echo "rt: waiting for another rt to finish in $PWD/crates/low"
for crate in $crates; do
    library=crates/$crate/out/rlib
    if [ ! -e $library/stamp ]; then
        echo "rt: $crate: begins with what a check kept in /a/copy"
        echo "rt: chose --jobs 2 for $crate"
        echo "fn $crate::call: proved"
        echo "statements std: modules loaded=1 checked=0"
        echo "crate $crate: modules loaded=0 checked=1"
        echo "logic=proved functions=1 target=x86_64"
        mkdir -p $library
        touch $library/stamp
    fi
done
[ ! -e ../edit ] || { sleep 0.1 && touch crates/low/src/file; }
if [ -e ../long ]; then
    rm crates/middle/out/rlib/stamp
    echo half >$made
    chmod +x $made
    rmdir ../running
    echo left >"${TMPDIR:-/tmp}/left"
    sleep 30 &
    echo $$ $! >../numbers
    mv ../numbers ../begun
    wait
fi
while [ -e ../hold ]; do sleep 0.02; done
if [ ! -e ../unchanged ]; then
    cp ../program $made
    chmod +x $made
fi
rmdir ../running 2>/dev/null
if [ -e ../fail ]; then
    cat ../fail
    echo 'fn side::call: not proved'
    echo 'crate side: modules loaded=0 checked=1'
    echo 'logic=not-proved'
    echo 'rattle build: nothing was built, since only a proved crate is built'
    echo 'rt: the library side did not build, so nothing above it was checked'
    exit 1
fi
echo "rt: running out/$program; to give it other input, run that file yourself"
TEXT

# As the true one this cargo goes by times of modification.
cat >"$work/path/cargo" <<'TEXT'
#!/bin/sh
program=target/release/tracetext
if [ "$1" = clean ]; then
    rm -f $program
elif [ ! -e $program ] || [ -n "$(find Cargo.toml src -newer $program)" ]; then
    echo '   Compiling tracetext'
    [ ! -e ../../../fail ] || { echo 'error: no such word' && exit 101; }
    mkdir -p target/release
    cp ../../../program $program
    chmod +x $program
fi
TEXT
chmod +x "$work/program" "$work/path/rt" "$work/path/cargo"

# A call of a script, from another folder, with what the script and the program said in these two files. Temporary
# files go to a folder of the test's own.
out=$work/out
errors=$work/errors

# started COMMAND..: the command, ended after a time, with the standard streams as they are.
started() {
    TMPDIR=$work/temporary PATH=$work/path:$PATH timeout 30 "$@"
}

# call STATUS COMMAND..: the command, with standard input as it is, ends with this status, and in time.
call() {
    local expected=$1 status
    shift
    started "$@" >"$out" 2>"$errors"
    status=$?
    if [ "$status" -ne "$expected" ]; then
        echo "status $status of: $*"
        cat "$errors"
        return 1
    fi
}

# bare STATUS COMMAND..: the same, without rt, cargo and flock on the path.
bare() {
    local expected=$1
    shift
    call "$expected" env PATH="$work/no tools" "$@"
}

# printed TEXT, said TEXT: all that came on standard output, on standard error.
printed() {
    printf '%s' "$1" | diff -a - "$out"
}

said() {
    printf '%s' "$1" | diff -a - "$errors"
}

builds() {
    if [ -e "$work/builds" ]; then wc -l <"$work/builds"; else echo 0; fi
}

# fresh: the repository as after a clone, and rt as it is by itself.
fresh() {
    find "$repository/crates" -name out -prune -exec rm -rf {} + && (cd "$work" && rm -rf builds begun running temporary fail unchanged edit hold long wait && mkdir temporary)
}

# built: the programs of the repository are there and current.
built() {
    call 7 "$repository/bin/mmutrace" </dev/null && call 7 "$repository/bin/mmureport" "$work/whole.trace" </dev/null
}

whole=$'\1bcdefgh\2BCDEFGH'
printf '%s' "$whole" >"$work/whole.trace"
printf '\1\2\3\4\5\6\7\10abc' >"$work/cut.trace"

. tests/text/builds.sh
. tests/text/calls.sh
