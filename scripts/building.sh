# What ./answers, ./library and scripts/archives share: messages, which crates stand on which, and having rt build one of them, with a
# line for each crate that it proves on the way. They set "command", the name that stands before each message, and "top", the project's
# folder, and then read this file.
# "-nt" is in every sh that Debian has.
# shellcheck shell=sh disable=SC2154,SC3013

fail() { # STATUS MESSAGE
    printf '%s: %s\n' "$command" "$2" >&2
    exit "$1"
}

# ---- The crates. A line of crates.txt has the crate's name first, and behind the colon what it stands on.

# crates_below CRATE..: these and all that they stand on, each behind what it stands on. In this order rt builds them.
crates_below() {
    WANTED="$*" awk '
        function visit(name,    parts, count, k) {
            if (name in seen || !(name in below)) return
            seen[name] = 1
            count = split(below[name], parts, " ")
            for (k = 1; k <= count; k++) visit(parts[k])
            print name
        }
        { sub(/#.*/, "") }
        index($0, ":") { at = index($0, ":"); split(substr($0, 1, at - 1), words, " "); below[words[1]] = substr($0, at + 1) }
        END { count = split(ENVIRON["WANTED"], wanted, " "); for (k = 1; k <= count; k++) visit(wanted[k]) }
    ' "$top/crates.txt"
}

# static_libraries: the crates with a function for C.
static_libraries() {
    awk '{ sub(/#.*/, ""); sub(/:.*/, "") } $2 == "staticlib" { print $1 }' "$top/crates.txt"
}

# What the library for C is compiled for: every x86-64 processor, and not only those of rt's default, x86-64-v2. Nothing in a library looks
# whether the processor will do, as a program does when it starts.
# shellcheck disable=SC2034 # it is for those that make the library
LIBRARY_CPU=x86-64

# changed_since FILE CRATE..: is a source of these crates, or of one that they stand on, newer than the file?
changed_since() {
    built=$1
    shift
    below=$(crates_below "$@")
    set -- "$top/crates.txt"
    for crate in $below; do
        set -- "$@" "$top/crates/$crate"
    done
    [ -n "$(find "$@" -name out -prune -o -newer "$built" -type f \( -path '*/src/*' -o -path '*/specs/*' -o -path '*/proofs/*' -o -name crates.txt \) -print)" ]
}

# is_made FILE CRATE: is the file there, and no older than what the crate is made of?
is_made() {
    [ -f "$1" ] || return 1
    if changed_since "$1" "$2"; then return 1; fi
}

# unproved CRATE..: these, and of the crates below them those that have changed since rt last built them, or stand on one that has. rt
# leaves a stamp beside each library that it builds for one of these commands. It is the files' times that are looked at, so that a
# crate too many may be named; rt goes by what the files hold.
unproved() {
    changed=' '
    for crate in $(crates_below "$@"); do
        case " $* " in *" $crate "*) changed="$changed$crate " && continue ;; esac
        for lower in $(crates_below "$crate"); do
            case $changed in *" $lower "*) changed="$changed$crate " && continue 2 ;; esac
        done
        stamp=$top/crates/$crate/out/rlib/stamp
        if [ ! -f "$stamp" ] || [ -n "$(find "$top/crates/$crate" -name out -prune -o -newer "$stamp" -type f ! -path '*/must-fail/*' -print)" ]; then
            changed="$changed$crate "
        fi
    done
    printf '%s\n' "$changed"
}

# ---- What is told of a build.

# tell_proving CRATE LEFT
tell_proving() {
    case $2 in
    0) printf '%s: proving %s, the last one\n' "$command" "$1" ;;
    1) printf '%s: proving %s, 1 crate left\n' "$command" "$1" ;;
    *) printf '%s: proving %s, %s crates left\n' "$command" "$1" "$2" ;;
    esac >&2
}

# tell_begun: a line for each crate that rt has begun to prove since the last look. For each it says how many jobs it chose. "awaited" are
# the crates that are still to come, in their order.
tell_begun() {
    # shellcheck disable=SC2013 # (a crate's name is one word)
    for crate in $(sed -n 's/^rt: chose --jobs [0-9]* for //p' "$top/target/building/log"); do
        case $told in *" $crate "*) continue ;; esac
        told="$told$crate "
        case $awaited in *" $crate "*) awaited=" ${awaited#*" $crate "}" ;; esac
        # shellcheck disable=SC2086
        tell_proving "$crate" "$(set -- $awaited && echo $#)"
    done
}

# ---- Building.

# One command builds at a time. The lock goes with the process that builds, also where this one is killed.
take_lock() {
    # (sh itself would end, with its own status, where "exec" can't open the file)
    (mkdir -p "$top/target/building" && : >>"$top/target/building/lock") 2>/dev/null || fail 1 "$top/target cannot be written to, which is where it is built"
    exec 9>>"$top/target/building/lock"
    flock -n 9 || {
        printf '%s: another command is building; waiting for it\n' "$command" >&2
        flock 9
    }
}

leave_lock() { exec 9>&-; }

# The shell does not come to its EXIT trap by itself where a signal ends it.
exit_on_signals() {
    trap 'exit 129' HUP
    trap 'exit 130' INT
    trap 'exit 141' PIPE
    trap 'exit 143' TERM
}

# Ends the build with the command. What is proved stays proved, and the next run goes on from there.
stop_building() { # STATUS
    # (this form, without "--", is one that every sh takes)
    kill -TERM "-$building" 2>/dev/null || true
    exit "$1"
}

# await CRATE..: these are to be built, one after the other.
await() {
    awaited=$(unproved "$@")
    told=' '
}

# run_rt CRATE WORD..: runs "rt WORD.." in the crate's folder, and tells which crates it proves. What it says is kept for show_log.
run_rt() {
    source=$top/crates/$1
    shift
    # (what an earlier run said is gone before tell_begun looks)
    : >"$top/target/building/log"
    # a group of its own: a signal for this command is to end all that rt has started
    (cd "$source" && exec setsid rt "$@") >"$top/target/building/log" 2>&1 </dev/null &
    building=$!
    trap 'stop_building 129' HUP
    trap 'stop_building 130' INT
    trap 'stop_building 143' TERM
    while kill -0 "$building" 2>/dev/null; do
        tell_begun
        sleep 0.2
    done
    tell_begun
    exit_on_signals
    wait "$building"
}

show_log() { cat "$top/target/building/log" >&2; }
