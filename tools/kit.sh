# Read by the scripts of this folder, which set `command` first, the name to speak under: their help, the repository, rt, and how the kit's tools are called.

say() { printf '%s: %s\n' "$command" "$*" >&2; }

# Trouble is status 2: 1 stays for what a script asks about, a refused file or a test that fails.
fail() { say "$*"; exit 2; }

# A script's head is its help.
case ${1:-} in -h | --help) sed -n '2,/^[^#]/s/^# \{0,1\}//p' "${help:-$0}"; exit 0 ;; esac

here=$(dirname "$(dirname "$(readlink -f "$0")")")
rt=$(command -v rt) || fail "rt, the command of the Rattle kit, is not on the path; README.md says what it is"
kit=${RATTLE_HOME:-$(dirname "$(dirname "$(readlink -f "$rt")")")}
toolchain=$kit/toolchain
[ -d "$toolchain" ] || fail "the kit $kit has no tools"

# ---- what rt makes

# The kit and every source, by content.
sources() {
    cat "$kit/KIT-ID"
    cd "$here" && find crates.txt crates -name out -prune -o -type f \( -name '*.rt' -o -name '*.antt' -o -name crates.txt \) -exec sha256sum {} + | LC_ALL=C sort
}

# A file that rt made is fresh while FILE.of has the sources that it was made of and the file's own bytes: so a source that was changed, taken away or
# brought back is seen, and a file that came there otherwise too.
made_of() { { sources && sha256sum <"$1"; } | sha256sum; }
is_fresh() { [ -f "$1" ] && [ -f "$1.of" ] && [ "$(cat "$1.of")" = "$(made_of "$1")" ]; }

# A crate and all that it stands on.
needs_of() {
    awk -v goal="$1" '
        function visit(n,    a, k, m) {
            if (!(n in deps) || n in seen) return
            seen[n]
            m = split(deps[n], a, " ")
            for (k = 1; k <= m; k++) visit(a[k])
            print n
        }
        { sub(/#.*/, ""); i = index($0, ":"); split(substr($0, 1, i - 1), head, " "); n = head[1]; if (i) deps[n] = substr($0, i + 1) }
        END { visit(goal) }' "$here/crates.txt"
}

# One line that counts: rewritten in place on a terminal; elsewhere said after two seconds, and then once a minute. rt proves one crate after another, those
# below first, and writes into crates/NAME/out when it is at a crate.
show_progress() {
    seconds=$((seconds + 1))
    [ -t 2 ] || [ $((seconds % 60)) -eq 2 ] || return 0
    begun=0 now=
    touched=" $(cd "$here/crates" && find . -mindepth 2 -maxdepth 4 -path './*/out*' -newer "$began" 2>/dev/null | cut -d / -f 2 | sort -u | paste -s -d ' ' -) "
    for crate in $needed; do
        case $touched in *" $crate "*) begun=$((begun + 1)) now=$crate ;; esac
    done
    [ -n "$now" ] || return 0
    words="proving $begun of $total: $now"
    if [ -t 2 ]; then printf '\r%s: %s\033[K' "$command" "$words" >&2; else say "$words"; fi
}

end_progress() { [ ! -t 2 ] || printf '\r\033[K' >&2; }

interrupted() {
    { kill "$making" && wait "$making"; } 2>/dev/null
    end_progress
    say "interrupted: what was proved is kept, and the next call goes on from there"
    exit 2
}

# by_word VERB: rt with this word in the crate's folder, into the log. The provers are a process group of their own, which `timeout` makes and, ended, ends: no
# prover outlives an interruption.
by_word() {
    (cd "$here/crates/$goal" && exec timeout 0 "$rt" "$1") </dev/null >>"$here/$log" 2>&1 &
    making=$!
    trap interrupted INT TERM HUP
    while kill -0 "$making" 2>/dev/null; do
        sleep 1
        show_progress
    done
    wait "$making"
    ended=$?
    trap - INT TERM HUP
    return $ended
}

# by_rt FILE VERB CRATE MADE: the file, a copy of what rt makes with this word in the crate's folder, where it is not fresh; by one call at a time, and again
# where a source was saved meanwhile. `rt run` runs a program once that it made, over the crate's own input.
by_rt() {
    wanted=$1
    verb=$2
    goal=$3
    made=$here/crates/$goal/out/$4
    is_fresh "$wanted" && return
    log=target/log/$goal.made
    began=$here/target/log/$goal.began
    needed=$(needs_of "$goal" | paste -s -d ' ' -)
    total=$(printf '%s\n' "$needed" | awk '{ print NF }')
    { mkdir -p "$here/target/log" "$(dirname "$wanted")" && exec 9>"$here/target/making"; } 2>/dev/null || fail "the folder $here/target could not be written"
    flock -n 9 || { say "another call is proving: waiting for it" && flock 9; }
    until is_fresh "$wanted"; do
        seconds=0
        before=$(sources)
        : >"$here/$log" && : >"$began" || exit 2
        by_word "$verb"
        ended=$?
        end_progress
        if [ $ended -ne 0 ]; then
            say "${wanted#"$here"/} could not be made. $log has what rt said; the first fault in it:"
            fail "$(awk '{ last = $0 } /error/ { exit } END { print last == "" ? "rt said nothing" : substr(last, 1, 300) }' "$here/$log")"
        fi
        [ -f "$made" ] || fail "rt made no ${made#"$here"/}; $log has what it said"
        cp "$made" "$wanted" || exit 2
        [ "$before" != "$(sources)" ] || made_of "$wanted" >"$wanted.of" || fail "${wanted#"$here"/}.of could not be written"
    done
    exec 9>&-
}

# The program of a crate, and the archive of the public calls, which C callers know as libface.a.
program_of() { by_rt "$here/target/bin/$1" run "$1" "$1"; }
archive=$here/target/staticlib/libface.a
make_archive() { by_rt "$archive" lib face_c libface_c.a; }

# ---- what the kit runs

# run_x86 PROGRAM WORDS..: by the kit's loader and C library. The loader looks for a bare name among the libraries.
run_x86() {
    case $1 in */*) ;; *) bare=$1 && shift && set -- "./$bare" "$@" ;; esac
    "$toolchain/lib/ld-linux-x86-64.so.2" --library-path "$toolchain/lib" "$@"
}
