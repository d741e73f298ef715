# Proves and builds the program: `coap-proxyd` at the top reads this where that is to be done, and calls `build_once`.
# Functions of that script that it uses: give_up, crates, know_sum, runs_here and is_built; variables: top, out, shipped,
# and sum, which know_sum sets.

# Prints the names of the crates that a crate stands on, lowest first.
below() {
    crates "$1" | grep -vx "$1"
}

# Prints how many processes there may be: one a processor, each with 2 GB, and no more than four.
processes() {
    memory=$(awk '/^MemAvailable:/ { print int($2 / 2000000) }' /proc/meminfo)
    printf '%s\n' 4 "$(nproc)" "${memory:-1}" | sort -n | head -n 1 | sed 's/^0$/1/'
}

# Puts a folder into another too, by links where the file system has them.
share() {
    cp -rl "$1" "$2" 2> /dev/null || cp -r "$1" "$2"
}

# Proves and builds one library by so many processes, if it isn't built from these sources, in a folder of its own, so
# that another can be built beside it: rt works in one crate at a time of those that stand on each other.
build_library() {
    ! "$top/tools/platforms/is-proved" "$1" > /dev/null 2>&1 || return 0
    lane="$out/lanes/$1"
    rm -rf "$lane" && mkdir -p "$lane/crates" || return 1
    for crate in $(crates "$1"); do
        mkdir -p "$lane/crates/$crate/out" && grep "^$crate:" "$top/crates.txt" >> "$lane/crates.txt" || return 1
        for part in src specs proofs; do
            [ ! -d "$top/crates/$crate/$part" ] || share "$top/crates/$crate/$part" "$lane/crates/$crate" || return 1
        done
        built="$top/crates/$crate/out/rlib"
        [ ! -d "$built" ] || share "$built" "$lane/crates/$crate/out" || return 1
    done
    cd "$lane/crates/$1" && run_rt lib --jobs "$2" || return 1
    mkdir -p "$top/crates/$1/out" && rm -rf "$top/crates/$1/out/rlib" || return 1
    mv "$lane/crates/$1/out/rlib" "$top/crates/$1/out" && rm -rf "$lane"
}

# Runs rt with these words; it ends if this shell is told to.
run_rt() {
    rt "$@" &
    trap "kill $! 2> /dev/null; exit 1" TERM
    wait $!
}

# Proves and builds one crate by so many processes. The program is run once on an empty input, since that is how it
# gets linked.
build() {
    if [ "$1" = proxyd ]; then
        cd "$top/crates/proxyd" && run_rt run --jobs "$2" -- $(cat args)
    else
        build_library "$1" "$2"
    fi < /dev/null > "$out/build.$1.log" 2>&1 && return
    clear_line
    tail -n 20 "$out/build.$1.log" >&2
    give_up "$1 could not be built; all that was said is in $out/build.$1.log"
}

# Whether standard error is a terminal on which a line can be renewed.
is_terminal() {
    [ -t 2 ] && [ "${TERM:-dumb}" != dumb ]
}

# Takes the line that is renewed off the terminal.
clear_line() {
    ! is_terminal || printf '\r\033[K' >&2
}

# Prints how long it took so far.
duration() {
    seconds=$(($(date +%s) - since))
    [ "$seconds" -lt 60 ] && echo "$seconds s" || echo "$((seconds / 60)) min $((seconds % 60)) s"
}

# Prints the crates that are under way, those neither built nor waiting, each with what it says of its functions where
# "$1" is "in full".
under_way() {
    for crate in $unbuilt; do
        case " $waiting " in *" $crate "*) continue ;; esac
        log="$out/build.$crate.log"
        all=$(sed -n 's/^so far: [0-9]* of \([0-9]*\) functions.*/ of \1/p' "$log" 2> /dev/null | tail -n 1)
        [ "$1" = "in full" ] && [ -n "$all" ] || { echo "$crate"; continue; }
        echo "$crate ($(grep -c '^fn .*: proved' "$log")$all functions)"
    done
}

# Prints how many crates are proved, and which are under way, in full or by name.
progress() {
    now=$(under_way "$1" | awk '{ line[NR] = $0 } END {
        for (i = 1; i <= NR; i++) printf "%s%s", i == 1 ? "" : i == NR ? " and " : ", ", line[i] }')
    echo "proved $proved of $count crates, $now under way, $(duration)"
}

# Renews the line on a terminal: in full, by names, or without them, whichever is the first that fits.
renew_line() {
    columns=$(tput cols 2> /dev/null) || columns=80
    for line in "$(progress "in full")" "$(progress "by name")" "proved $proved of $count crates, $(duration)"; do
        [ "${#line}" -ge "$columns" ] || break
    done
    clear_line
    printf '%s' "$line" >&2
}

# Says that a crate is built, where that stays: on a terminal a line is renewed in its place.
tell_built() {
    is_terminal || echo "coap-proxyd: proved $proved of $count crates: $1, $(duration)" >&2
}

# Has the line renewed each second, as long as this script runs.
tick() {
    while sleep 1 && kill -0 $$ 2> /dev/null; do
        echo tick >&8
    done
}

# Whether none of the crates below this one is still to be built.
is_ready() {
    for lower in $(below "$1"); do
        case " $unbuilt " in *" $lower "*) return 1 ;; esac
    done
}

# Builds a crate by so many processes, and then writes to those that wait for it how that went.
build_and_tell() {
    trap "echo $1 $2 \$? >&8" EXIT
    build "$1" "$2"
}

# Begins to build each crate that is ready, as far as there are processes left: they share them out.
begin_ready() {
    ready=
    for crate in $waiting; do
        ! is_ready "$crate" || ready="$ready $crate"
    done
    set -- $ready
    while [ $# -gt 0 ] && [ "$idle" -gt 0 ]; do
        jobs=$(((idle + $# - 1) / $#))
        build_and_tell "$1" "$jobs" 9>&- &
        begun="$begun $!"
        idle=$((idle - jobs))
        waiting=$(echo " $waiting " | sed "s/ $1 / /")
        shift
    done
}

# Proves and builds all crates of the program, each as soon as those below it are built. Each tells through a pipe how
# it went; the pipe loses its name at once, since rt wants plain files and folders alone in a crate.
build_crates() {
    idle=$(processes) begun= ticker= proved=0 since=$(date +%s)
    waiting=$(crates proxyd | tr '\n' ' ')
    unbuilt=$waiting count=$(echo $waiting | wc -w)
    rm -f "$out/ended" && mkfifo "$out/ended" && exec 8<> "$out/ended" && rm "$out/ended" || exit 1
    trap 'clear_line; kill $begun $ticker 2> /dev/null; exit 1' INT TERM HUP
    ! is_terminal || { tick 9>&- & ticker=$!; }
    begin_ready
    while [ -n "$(echo $unbuilt)" ]; do
        read -r crate jobs status <&8
        [ "$crate" != tick ] || { renew_line; continue; }
        [ "$status" = 0 ] || { kill $begun $ticker 2> /dev/null; exit 1; }
        note_built "$crate" "$jobs"
        begin_ready
    done
    trap - INT TERM HUP
    [ -z "$ticker" ] || kill "$ticker" 2> /dev/null
    exec 8>&-
    clear_line
    echo "coap-proxyd: proved $proved of $count crates and built the program, $(duration)" >&2
}

# Notes that a crate is built, so that its processes are free.
note_built() {
    idle=$((idle + $2)) proved=$((proved + 1))
    unbuilt=$(echo " $unbuilt " | sed "s/ $1 / /")
    tell_built "$1"
}

# Ends where there is no kit to prove and build the program with: in a line that says what can be done.
give_up_without_kit() {
    if [ -x "$shipped" ] && runs_here; then
        give_up "the sources were changed since bin/ was made, and rt isn't in PATH to build them; $shipped runs as it is"
    fi
    give_up "it must be proved and built, and rt isn't in PATH: $top/docs/BUILDING.md says what that is"
}

# Proves and builds all, from the sources that there are as this begins.
build_all() {
    command -v rt > /dev/null || give_up_without_kit
    [ -n "$(crates proxyd)" ] || give_up "crates.txt has no crate proxyd"
    know_sum || give_up "the sources can't be read"
    cat >&2 << END
coap-proxyd: it is proved and built first, once. From scratch that took 23 minutes with four processors; this build
uses $(processes). To read meanwhile:
    man -l $top/docs/coap-proxyd.8
END
    begun_from=$sum
    rm -f "$out/built-from" || exit 1
    build_crates
    echo "$begun_from" > "$out/built-from"
}

# Builds where that is still to be done, one start at a time: another waits until the first is done.
build_once() {
    mkdir -p "$out" && exec 9> "$out/building" || give_up "$out can't be written"
    if ! flock -n 9; then
        echo "coap-proxyd: waiting for another start, which builds the program" >&2
        flock 9 || exit 1
    fi
    is_built || build_all
    exec 9>&-
    is_built || give_up "the sources changed while it was built; try again"
}
