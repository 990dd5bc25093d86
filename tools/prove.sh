# For ./run, which has set `here` and `name`: `prove` is `rt run` of the program `name`, one at a time in this working copy: rt proves and builds
# it, and runs it once on nothing. While it proves this says on standard error which crate it is at; on a terminal in one line, which goes at the end. What
# rt said is kept in target/run.said.
# shellcheck shell=sh disable=SC2154
said=$here/target/run.said

# The crate that is being proved and its place among those that are needed, if there is one: rt says for each how many jobs it chose, where it begins.
in_work() { # CRATES
    current=$(sed -n 's/^rt: chose --jobs [0-9]* for \([a-z0-9_]*\)$/\1/p' "$said" | tail -n 1) at=0
    for crate; do
        at=$((at + 1))
        if [ "$crate" = "$current" ]; then echo "$crate ($at of $#"; fi
    done
}

# The end of `tell`, with nothing left behind.
hush() {
    { kill "$nap" && wait "$nap"; } 2>/dev/null || :
    if [ -n "$before" ] && renews; then printf '\r\033[K'; fi
    exit 0
}

# Whether one line can be renewed.
renews() { [ -t 1 ] && [ "${TERM:-dumb}" != dumb ]; }

# Says what is being proved, until it is ended: on a terminal once a second in the same line, elsewhere once for each crate.
tell() {
    before='' nap=''
    trap hush TERM
    needed=$("$here/tools/made" below "$name")
    while kill -0 "$prover" 2>/dev/null; do
        sleep 1 >/dev/null 2>&1 &
        nap=$!
        wait "$nap"
        # shellcheck disable=SC2086 # a word for each crate
        now=$(in_work $needed "$name")
        [ -n "$now" ] || continue
        line="./run: proving $now, $(($(date +%s) - begun)) s so far)"
        if renews; then printf '\r%s\033[K' "$line"; elif [ "$now" != "$before" ]; then printf '%s\n' "$line"; fi
        before=$now
    done
}

# At a signal: ends the prover with all that it has started, and then this.
give_up() { # SIGNAL
    trap - HUP INT TERM
    kill -- "-$prover" 2>/dev/null || kill "$prover" 2>/dev/null || :
    kill "$teller" 2>/dev/null || :
    wait 2>/dev/null || :
    kill -s "$1" $$
}

# What rt said, without what it says where all is well.
told() { grep -vE '^(fn .*: proved|checked |so far: |statements |library |crate |axioms |logic |logic=proved|rt: chose )' "$said" | tail -n "${1:-60}"; }

# Status 0 where the program is proved and built.
prove() {
    # Two that prove at once would write into the same folder.
    exec 9>"$here/target/run.lock"
    if command -v flock >/dev/null && ! flock -w 2 9; then
        echo "./run: another ./run is proving; this one waits for it" >&2
        flock 9
    fi
    ! "$here/tools/made" is "$name" || {
        exec 9>&-
        return 0
    }
    begun=$(date +%s) prover='' teller=''
    sum=$("$here/tools/made" text "$name")
    # shellcheck disable=SC2064 # the name is put in now
    for signal in HUP INT TERM; do trap "give_up $signal" "$signal"; done
    # In a session of its own, where that can be: then one signal ends rt and all below it. Its status may be that of the program.
    (cd "$here/crates/$name" && exec $(command -v setsid) rt run) >/dev/null 2>"$said" </dev/null &
    prover=$!
    tell >&2 9>&- </dev/null &
    teller=$!
    wait "$prover" || :
    trap - HUP INT TERM
    { kill "$teller" && wait "$teller"; } 2>/dev/null || :
    status=0
    grep -q "^rt: running out/$name;" "$said" || status=1
    # Where the text was changed meanwhile, the next ./run asks rt again.
    [ "$status" -ne 0 ] || "$here/tools/made" note "$sum" "$name" 2>/dev/null || :
    exec 9>&-
    return "$status"
}
