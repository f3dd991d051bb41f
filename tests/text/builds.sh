# shellcheck shell=bash disable=SC2030,SC2031,SC2154
# How the scripts of bin/ build. Part of tests/text/scripts.sh, whose repository and helpers it uses.

# runs BUILDS: a call from another folder, after which there were so many builds in all.
runs() {
    (cd / && printf 'a\nb' | call 7 "$repository/bin/mmutrace") && printed $'arguments:\na\nb' && [ "$(builds)" -eq "$1" ]
}

# fails SENTENCE: a call that ends with status 2, writes nothing, and says this.
fails() {
    call 2 "$repository/bin/mmutrace" </dev/null && printed '' && grep -qxF "mmutrace: $1" "$errors"
}

# announced PROGRAM CRATES: the first line of a build.
announced() {
    echo "$1: crates/$1/out/$1 is proved and built first: $2 crates, some minutes where none is proved yet"
}

# A line for each crate, and what the prover said in the log.
first_call() {
    fresh && runs 1 && said "$(announced mmutrace 4)
mmutrace: 1/4 low
mmutrace: 2/4 side
mmutrace: 3/4 middle
mmutrace: 4/4 mmutrace
" && grep -qx 'fn low::call: proved' "$repository/crates/mmutrace/out/mmutrace.log"
}

second_call() {
    runs 1 && said ''
}

# Crates that stay proved are counted, not shown.
another_program() {
    call 7 "$repository/bin/mmureport" "$work/whole.trace" </dev/null && printed "arguments: <$work/whole.trace>
" && said "$(announced mmureport 5)
mmureport: 4/5 other
mmureport: 5/5 mmureport
"
}

# Each changed source is one build; so is a program that is old or missing.
changed_source() {
    fresh && runs 1 && touch "$repository/crates/low/src/file" && runs 2 && touch "$repository/crates.txt" && runs 3 &&
        touch -t 197001020000 "$repository/crates/mmutrace/out/mmutrace" && runs 4 &&
        rm "$repository/crates/mmutrace/out/mmutrace" && runs 5 && runs 5
}

# What a program is not made from: wrong versions, and what rt leaves in out/.
other_files() {
    fresh && runs 1 && touch "$repository/crates/low/must-fail/a.edit" "$repository/crates/side/out/rlib/stamp" && runs 1 &&
        rm -r "$repository/crates/other/out" 2>/dev/null
    mkdir -p "$repository/crates/other/out" && runs 1
}

# Where rt waits for another rt, by hand or of a gate, it is said.
says_wait() {
    fresh && touch "$work/wait" && runs 1 &&
        grep -qxF "mmutrace: waiting for another rt to finish in $repository/crates/low" "$errors"
}

# A source that is newer but the same: rt is asked once, not at every call from then on.
same_source() {
    fresh && runs 1 && touch "$work/unchanged" "$repository/crates/low/src/file" && runs 2 && runs 2
}

# older FILE..: the files as others with a time of long ago, as cp -a and tar leave them.
older() {
    touch -t 200101010000 "$@"
}

# A source that was copied in with an older time: rt is asked once too.
older_source() {
    fresh && runs 1 && older "$repository/crates/low/src/file" && runs 2 && runs 2
}

# A source that changes during a build is newer than the program.
source_changed_meanwhile() {
    fresh && touch "$work/edit" && runs 1 && rm "$work/edit" && runs 2 && runs 2
}

# A failed build is not run, now or at the next call, although it left a program. Of the prover's lines those are
# shown that say what failed.
failed_build() {
    local sentence="the build of crates/mmutrace/out/mmutrace failed, so it is not run: $repository/crates/mmutrace/out/mmutrace.log has all that rt said"
    fresh && touch "$work/fail" && fails "$sentence" && fails "$sentence" && sed -i 1d "$errors" && said "\
fn side::call: not proved
rt: the library side did not build, so nothing above it was checked
mmutrace: $sentence
" && grep -qx 'logic=not-proved' "$repository/crates/mmutrace/out/mmutrace.log" && rm "$work/fail" && runs 3 && runs 3
}

# rt ended well, and there is no program.
lost_program() {
    fresh && runs 1 && touch "$work/unchanged" && rm "$repository/crates/mmutrace/out/mmutrace" &&
        fails "rt ended well, but there is no crates/mmutrace/out/mmutrace: remove $repository/crates/mmutrace/out, and call again" &&
        rm "$work/unchanged" && runs 3
}

# Without rt: what is current still runs, what is to be built does not.
without_rt() {
    fresh && built && bare 7 "$repository/bin/mmutrace" </dev/null && said '' && touch "$repository/crates.txt" &&
        bare 2 "$repository/bin/mmutrace" </dev/null && printed '' &&
        said $'mmutrace: crates/mmutrace/out/mmutrace is to be built, but rt is not on the path\n'
}

# Without flock, and without setsid: it is built all the same.
without_flock() {
    fresh && ln -s "$work/path/rt" "$work/path/cargo" "$work/no tools" && ln -s "$(command -v cp)" "$(command -v rmdir)" "$work/no tools" &&
        bare 7 "$repository/bin/mmutrace" </dev/null &&
        grep -qxF 'mmutrace: flock is not on the path, so start no other call before this build has ended' "$errors" &&
        mv "$work/no tools/setsid" "$work" && touch "$repository/crates.txt" && bare 7 "$repository/bin/mmutrace" </dev/null &&
        mv "$work/setsid" "$work/no tools" && rm "$work/no tools/rt" "$work/no tools/cargo"
}

waits="mmu[a-z]*: waiting for another call's build, whose log is in $repository/crates/[*]/out"

# await COMMAND..: waits until the command succeeds, for some seconds at most.
await() {
    local tries=0
    until "$@" || [ "$tries" -eq 100 ]; do
        tries=$((tries + 1))
        sleep 0.05
    done
}

# together BUILDS SCRIPT..: calls at the same time on a fresh clone, of which the first build holds on until the others
# say that they wait. All run, and there are so many builds.
together() {
    local expected=$1 script process processes=() calls=0 good=0
    shift
    fresh
    rm -rf "$work/together" && mkdir "$work/together" && touch "$work/hold"
    for script in "$@"; do
        calls=$((calls + 1))
        (
            out=$work/together/out.$calls errors=$work/together/errors.$calls
            call 7 "$repository/bin/$script" "$work/whole.trace"
        ) &
        processes+=($!)
    done
    await others_wait "$calls"
    rm "$work/hold"
    for process in "${processes[@]}"; do
        wait "$process" && good=$((good + 1))
    done
    [ "$good" -eq "$calls" ] && [ "$(builds)" -eq "$expected" ] && others_wait "$calls"
}

# others_wait CALLS: all calls but one have said that they wait.
others_wait() {
    [ "$(cat "$work/together"/errors.* 2>/dev/null | grep -cx "$waits")" -eq $(($1 - 1)) ]
}

# interrupt HOW ENDING [SHELL]: a build that is interrupted ends, with all that it started, and leaves no file: no half
# program that would be run next, no mark, no log, nothing among the temporary files. The script ends as the signal ends
# it.
interrupt() {
    local how=$1 ending=$2
    shift 2
    fresh && touch "$work/long" && call 0 python3 tests/text/terminal.py interrupt "$how" "$work/begun" "$@" "$repository/bin/mmutrace"
    rm "$work/long"
    printed "$ending"$'\n' && tail -n 1 "$errors" | grep -qxF 'mmutrace: interrupted: crates/mmutrace/out/mmutrace is not built' &&
        [ -z "$(ls -A "$work/temporary")" ] && [ "$(ls -A "$repository/crates/mmutrace/out")" = rlib ] && runs 2 && runs 2
}

# A build of which all processes are killed cannot clear up. The half program is not run.
killed() {
    fresh && touch "$work/long" && call 0 python3 tests/text/terminal.py interrupt all "$work/begun" "$repository/bin/mmutrace"
    rm "$work/long"
    printed $'SIGKILL\n' && runs 2 && runs 2
}

# A call that waits for another one's build can be interrupted, and the other goes on.
waiting_interrupted() {
    local other
    fresh && rm -f "$work/waits" "$errors" && touch "$work/long" || return 1
    (errors=$work/errors.other out=$work/out.other && call 7 "$repository/bin/mmutrace" </dev/null) &
    other=$!
    await [ -e "$work/begun" ]
    rm "$work/long"
    (await grep -qsx "$waits" "$errors" && touch "$work/waits") &
    call 0 python3 tests/text/terminal.py interrupt TERM "$work/waits" "$repository/bin/mmureport" "$work/whole.trace"
    # Without its sleep the other call's rt goes on.
    kill "$(cut -d ' ' -f 2 "$work/begun")"
    wait "$other" && printed $'SIGTERM\n' && runs 1
}

# cannot_build SENTENCE [COMMAND..]: a call that says only why nothing can be built.
cannot_build() {
    local sentence=$1
    shift
    call 2 "$@" "$repository/bin/mmutrace" </dev/null && printed '' &&
        said "mmutrace: crates/mmutrace/out/mmutrace is to be built, but $sentence
"
}

# Where out/ or a temporary folder cannot be made there is one sentence.
unmade_folders() {
    local made=$repository/crates/mmutrace/out
    local sentence="$made is no folder: remove it, and call again"
    fresh && touch "$made" && cannot_build "$sentence" &&
        fresh && ln -s nowhere "$made" && cannot_build "$sentence" &&
        fresh && cannot_build "no temporary folder can be made in $work/missing" env TMPDIR="$work/missing" && runs 1
}

# A copy of bin/ alone has nothing to build, nor has a repository that lost its sources.
without_sources() {
    local script missing
    rm -rf "$work/alone" && mkdir "$work/alone" && cp -R bin "$work/alone" || return 1
    for script in mmutrace mmureport tracetext; do
        missing=crates
        [ "$script" != tracetext ] || missing=tools/tracetext/Cargo.toml
        call 2 "$work/alone/bin/$script" "$work/whole.trace" </dev/null && printed '' && grep -qxF "\
$script: $(built_as $script) is to be built, but there is no $work/alone/$missing: call a script of a whole repository, or a link to it" "$errors" &&
            [ "$(wc -l <"$errors")" -eq 1 ] || return 1
    done
    fresh && built && mv "$repository/crates" "$work/alone" && call 2 "$repository/bin/mmutrace" </dev/null
    mv "$work/alone/crates" "$repository" && grep -q "there is no $repository/crates: " "$errors"
}

# built_as SCRIPT: the path of its program.
built_as() {
    if [ "$1" = tracetext ]; then echo tools/tracetext/target/release/tracetext; else echo "crates/$1/out/$1"; fi
}

# as_it_is REASON: what is said where a program is run although sources were copied since.
as_it_is() {
    said "mmutrace: crates/mmutrace/out/mmutrace is run as it is: sources were copied or changed since it was built, none is newer, and $1
"
}

# A program that was built before is run where nothing can be built and no source is newer, but not without a word.
copied_without_rt() {
    fresh && built && older "$repository/crates.txt" && bare 7 "$repository/bin/mmutrace" </dev/null &&
        as_it_is 'rt is not on the path' && runs 3
}

# by_nobody STATUS: a call by a user who may not write the repository.
by_nobody() {
    call "$1" setpriv --reuid=65534 --regid=65534 --clear-groups "$repository/bin/mmutrace" </dev/null
}

unwritable() {
    chmod 711 "$work" && fresh && built && by_nobody 7 && said '' && older "$repository/crates.txt" && by_nobody 7 &&
        as_it_is "$repository/crates/mmutrace/out cannot be written" && touch "$repository/crates.txt" && by_nobody 2 &&
        said "mmutrace: crates/mmutrace/out/mmutrace is to be built, but $repository/crates/mmutrace/out cannot be written: take a copy of the repository that you may write
"
}

# Standard error whose reader is gone, or that is closed: it is built and run.
unheard() {
    fresh && { sleep 0.1 && started "$repository/bin/mmutrace" "$work/cut.trace" 2>&1 >"$out"; } | true
    [ "${PIPESTATUS[0]}" -eq 7 ] && cmp -s <(tail -n +2 "$out") "$work/cut.trace" && [ "$(builds)" -eq 1 ] && unheard_by
}

# unheard_by [SHELL]: a call with a closed standard error.
unheard_by() {
    fresh
    started "$@" "$repository/bin/mmutrace" "$work/whole.trace" >"$out" 2>&-
    [ $? -eq 7 ] && printed $'arguments:\n'"$whole" && [ "$(builds)" -eq 1 ]
}

# After a build a program whose reader is gone ends by the signal, as without one.
reader_gone() {
    fresh
    yes | started "$repository/bin/mmutrace" 2>"$errors" | head -n 1 >"$work/first"
    [ "$(builds)" -eq 1 ] && [ "$(cat "$work/first")" = arguments: ] && ! grep -i pipe "$errors"
}

listed() {
    find "$repository" -printf '%p %s %T@ %C@\n'
}

# A call that finds the program current writes nothing to the repository, so that it may be read-only.
reads_only() {
    local before
    fresh && built && before=$(listed) && call 7 "$repository/bin/mmutrace" </dev/null && [ "$(listed)" = "$before" ]
}

tracetext_builds() {
    fresh && rm -rf "$repository/tools/tracetext/target" && call 7 "$repository/bin/tracetext" decode 'a b' </dev/null &&
        printed $'arguments: <decode> <a b>\n' &&
        said $'tracetext: tools/tracetext/target/release/tracetext is built first: a few seconds\n' &&
        call 7 "$repository/bin/tracetext" decode </dev/null && said ''
}

# What failed may have a cause that is no proof: it comes first, and there are ten lines at most.
causes_of_failure() {
    local sentence="the build of crates/mmutrace/out/mmutrace failed, so it is not run: $repository/crates/mmutrace/out/mmutrace.log has all that rt said"
    fresh && printf '%s\n' 'fn side::error: proved' 'side.rt:3:7: error: no such name' 'no error was found: none' \
        'error[E1]: no such type' 'rattle: no library' "cp: error writing 'a': No space left on device" >"$work/fail" &&
        fails "$sentence" && sed -i 1,5d "$errors" && said "\
side.rt:3:7: error: no such name
error[E1]: no such type
rattle: no library
cp: error writing 'a': No space left on device
fn side::call: not proved
rt: the library side did not build, so nothing above it was checked
mmutrace: $sentence
" && seq -f 'side.rt:%g: error: no such name' 12 >"$work/fail" && fails "$sentence" && sed -i 1d "$errors" &&
        said "$(head -n 10 "$work/fail")
mmutrace: $sentence
"
}

# cargo goes by times of modification, and still compiles a source that was copied in with an older one.
tracetext_older_source() {
    local log=$repository/tools/tracetext/target/tracetext.log
    fresh && call 7 "$repository/bin/tracetext" decode </dev/null && older "$repository/tools/tracetext/src/usage.txt" && rm -f "$log" &&
        call 7 "$repository/bin/tracetext" decode </dev/null && grep -q Compiling "$log" &&
        call 7 "$repository/bin/tracetext" decode </dev/null && said ''
}

tracetext_fails() {
    local log=tools/tracetext/target/tracetext.log
    fresh && touch "$work/fail" "$repository/tools/tracetext/Cargo.toml" && call 2 "$repository/bin/tracetext" decode </dev/null
    rm "$work/fail"
    sed -i 1d "$errors" && said "error: no such word
tracetext: the build of tools/tracetext/target/release/tracetext failed, so it is not run: $repository/$log has all that cargo said
" && grep -q Compiling "$repository/$log"
}

# under SHELL: the scripts, run by this shell.
under() {
    local shell
    shell=$(command -v "$1") && mkdir -p "$work/$1" && ln -sf "$shell" "$work/$1/sh" && cp "$work/path/rt" "$work/$1" || return 1
    (PATH=$work/$1:$PATH && interrupt INT SIGINT sh && fresh && call 7 sh "$repository/bin/mmutrace" "$work/whole.trace" &&
        cmp -s <(tail -n +2 "$out") "$work/whole.trace" && grep -qx 'mmutrace: 4/4 mmutrace' "$errors" &&
        call 2 sh "$repository/bin/mmutrace" <&- && call 2 sh "$repository/bin/mmutrace" none && unheard_by sh &&
        call 7 sh "$repository/bin/mmureport" "$work/program" - </dev/null && [ "$(grep -c -e 'it looks like a text' -e ': it cannot be' "$errors")" -eq 2 ])
}

verdict "bin/mmutrace builds at the first call, and shows each crate" first_call
verdict "bin/mmutrace does not build at the second call" second_call
verdict "bin/mmureport counts the crates that stay proved" another_program
verdict "bin/mmutrace builds where it is older than a source, or missing" changed_source
verdict "bin/mmutrace does not build for a file that it is not made from" other_files
verdict "bin/mmutrace says what rt waits for" says_wait
verdict "bin/mmutrace asks once about a source that is the same" same_source
verdict "bin/mmutrace asks once about a source that was copied in with an older time" older_source
verdict "bin/mmutrace builds again what changed during a build" source_changed_meanwhile
verdict "bin/mmutrace does not run what failed to build, and shows what failed" failed_build
verdict "bin/mmutrace shows the causes of a failed build first" causes_of_failure
verdict "bin/mmutrace says where a program was lost" lost_program
verdict "bin/mmutrace says where rt is missing" without_rt
verdict "bin/mmutrace builds without flock and setsid" without_flock
if command -v flock >/dev/null; then
    verdict "bin/mmutrace called four times at once builds once" together 1 mmutrace mmutrace mmutrace mmutrace
    verdict "bin/mmutrace and bin/mmureport called at once build one after the other" \
        together 2 mmutrace mmureport mmureport mmutrace
    verdict "a call that waits for a build can be interrupted" waiting_interrupted
else
    echo "not tried, since flock is not here: calls at the same time"
fi
for how in INT TERM HUP QUIT; do
    verdict "bin/mmutrace leaves nothing behind after $how" interrupt "$how" "SIG$how"
done
verdict "bin/mmutrace leaves nothing behind after Ctrl-C" interrupt Ctrl-C SIGINT
verdict "bin/mmutrace does not run what a killed build left" killed
verdict "bin/mmutrace says which folder cannot be made" unmade_folders
verdict "the scripts say that the sources are missing" without_sources
verdict "bin/mmutrace runs a copy without rt, and says so" copied_without_rt
if [ "$(id -u)" -eq 0 ] && command -v setpriv >/dev/null; then
    verdict "bin/mmutrace says where it cannot write" unwritable
else
    echo "not tried, since this is not root with setpriv: a repository that cannot be written"
fi
verdict "bin/mmutrace builds where nobody hears it" unheard
verdict "bin/mmutrace leaves the signal of a pipe as it is" reader_gone
verdict "bin/mmutrace writes nothing where the program is current" reads_only
verdict "bin/tracetext builds quietly" tracetext_builds
verdict "bin/tracetext compiles a source that was copied in with an older time" tracetext_older_source
verdict "bin/tracetext shows what failed" tracetext_fails
for shell in dash bash; do
    if command -v "$shell" >/dev/null; then
        verdict "the scripts run under $shell" under "$shell"
    else
        echo "not tried, since it is not here: $shell"
    fi
done
