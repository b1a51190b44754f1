# Proves the crates that some programs stand on and builds the programs: to be sourced by ./prove, after tools/programs.bash.
#
# It sets `top`, the folder of the repository, and `names`, the programs. What is said goes to standard error, and all that rt says to its log.
# Where the build fails the status is 70.

log=$top/out/prove.log
# What a build takes at most, in MiB: of memory, where no crates are proved side by side, and of disk for temporary files.
least_memory=5120 least_disk=6144
meminfo=/proc/meminfo

# What ends a script from outside. To write to a pipe that nobody reads any more is one of them.
signals=(INT QUIT TERM HUP PIPE)
# What a call has while it builds: a folder, the copy of the sources in it, and the process of rt.
room='' copy='' rt=''

say() {
    echo "prove: $1" >&2
}

# The crates of the programs.
roots() {
    local name
    for name in "${names[@]}"; do
        crate_of "$name"
    done
}

# The programs in out/ are whole, of the sources that are here and of the kit that is here.
are_of_these_sources() {
    local name kit
    kit=$(rt version 2>/dev/null) || return
    for name in "${names[@]}"; do
        [[ -x $top/out/$name && $(told "$top/out" "$name" kit) == "$kit" ]] \
            && [[ $(told "$top/out" "$name" version) == "$(<"$top/VERSION")" ]] \
            && [[ $(sum_of_file "$top/out/$name") == "$(told "$top/out" "$name" sha256)" ]] \
            && [[ $(sum_of_sources "$top" "$name") == "$(told "$top/out" "$name" sources)" ]] || return
    done
}

# Makes the folder of a build, which others may enter and not list, and copies to it what the programs stand on and what rt runs them on.
# For rt the copy is the top of a repository, wherever it lies.
copy_sources() {
    local -a paths
    local where
    where=$(readlink -ev -- "${TMPDIR:-/tmp}") || return
    room=$where/m11-prove.$$.$RANDOM
    # One that is there already is somebody else's, and not to be removed.
    mkdir -m 711 -- "$room" || { room='' && return 1; }
    copy=$room/repository
    mkdir -m 711 -- "$room/tmp" && mkdir -p -- "$copy/crates" "$copy/.git" || return
    lists "$top" $(roots) >"$copy/crates.txt" || return
    mapfile -t paths < <(parts "$top" src specs proofs args data stdin stdout status <"$copy/crates.txt")
    [[ -e $top/HANDLES ]] && paths+=(HANDLES)
    (cd -- "$top" && cp -R --parents -- "${paths[@]}" "$copy")
}

# There is room on the disk, and memory. This is asked before all is proved.
has_room() {
    local free
    free=$(df --output=avail --block-size=1M -- "$room" | tail -n 1) || return
    if ((free < least_disk)); then
        echo "a build takes some 5 GiB of disk below ${room%/*}, and $free MiB are free: set TMPDIR to a folder on another disk"
        return 1
    fi
    free=$(awk '/^(MemAvailable|SwapFree):/ { sum += $2 } END { print int(sum / 1024) }' "$meminfo") || return
    if ((free < least_memory)); then
        echo "a build takes at least 5 GiB of memory, and $free MiB are free"
        return 1
    fi
}

# rt runs the programs in the folder of the build, and as nobody where it is root.
can_run_there() {
    local -a as_nobody=()
    ((EUID)) || as_nobody=(setpriv --reuid=65534 --regid=65534 --clear-groups)
    printf '#!/bin/sh\n' >"$room/tmp/try" && chmod 755 -- "$room/tmp/try" || return
    "${as_nobody[@]}" "$room/tmp/try" && rm -- "$room/tmp/try" && return
    echo "rt can't run the programs below ${room%/*}${as_nobody:+, where it runs them as nobody}: set TMPDIR to a folder in which it can"
    return 1
}

# Becomes rt over the copy, in a session of its own and without the lock. It ends when this script is killed.
become_rt() {
    exec {lock}<&-
    cd -- "$copy" && umask 022 && TMPDIR=$room/tmp exec setpriv --pdeathsig KILL setsid rt ci
}

# Proves the copy.
prove() {
    local status
    become_rt </dev/null >>"$log" 2>&1 &
    rt=$!
    show_progress
    wait "$rt" 2>/dev/null
    status=$?
    ((status == 0)) || echo "rt ended with status $status" >>"$log"
    end_rt
    return "$status"
}

# Shows until rt ends how many crates it has proved: on a terminal on one line, which is written again each second, else with a line for each.
show_progress() {
    local count told=0 began=$SECONDS passed is_over=''
    local -a proved
    count=$(wc -l <"$copy/crates.txt")
    until [[ -n $is_over ]]; do
        kill -0 "$rt" 2>/dev/null || is_over=1
        mapfile -t proved < <(sed -nE 's/^rt: ([a-z0-9_]+) (proved$|is kept: ).*/\1/p' "$log" 2>/dev/null)
        printf -v passed '%d:%02d' $(((SECONDS - began) / 60)) $(((SECONDS - began) % 60))
        if [[ -t 2 ]]; then
            printf '\r\e[Kprove: %d of %d crates proved; %s' "${#proved[@]}" "$count" "$passed" >&2
        else
            for ((; told < ${#proved[@]}; told++)); do
                say "$((told + 1)) of $count crates proved: ${proved[told]}; $passed"
            done
        fi
        [[ -n $is_over ]] || wait_for_a_second
    done
    clear_line
}

clear_line() {
    [[ ! -t 2 ]] || printf '\r\e[K' >&2
}

# Waits for a second, or until rt ends. A signal is answered when the short command that runs has ended.
wait_for_a_second() {
    local end=$((SECONDS + 1))
    while ((SECONDS < end)) && kill -0 "$rt" 2>/dev/null; do
        sleep 0.1
    done
}

# The processes of rt that haven't ended. It gives a session of its own to each program that it runs.
processes_of_rt() {
    local file stat='' pattern='^([0-9]+) .*\) ([A-Z]) ([0-9]+) [0-9]+ ([0-9]+) '
    for file in /proc/[0-9]*/stat; do
        { IFS= read -rd '' stat <"$file"; } 2>/dev/null
        [[ $stat =~ $pattern && ${BASH_REMATCH[2]} != Z ]] || continue
        [[ " ${BASH_REMATCH[1]} ${BASH_REMATCH[3]} ${BASH_REMATCH[4]} " == *" $rt "* ]] && echo "${BASH_REMATCH[1]}"
    done
}

# Kills what is left of rt and of all that it started, and comes back when nothing is.
end_rt() {
    local -a left
    while mapfile -t left < <(processes_of_rt) && ((${#left[@]})); do
        kill -KILL "${left[@]}" 2>/dev/null
        sleep 0.1
    done
    rt=''
}

# Puts each program in its place, whole, and then the MANIFEST with the lines of these programs and of those that stay.
take_programs() {
    local name sources kit commit
    kit=$(rt version) && mkdir -- "$room/built" && take_built "$copy" "$room/built" "${names[@]}" || return
    commit=$([[ -e $top/.git ]] && git -C "$top" describe --always --dirty --abbrev=12 2>/dev/null)
    [[ ! -f $top/out/MANIFEST ]] || cp -- "$top/out/MANIFEST" "$room/MANIFEST" || return
    touch -- "$room/MANIFEST" || return
    for name in "${names[@]}"; do
        sources=$(sum_of_sources "$copy" "$name") && sed -i "/^$name /d" "$room/MANIFEST" || return
        told_line "$room/built" "$name" "$sources" "${commit:-unknown}" "$kit" >>"$room/MANIFEST" || return
        cp -- "$room/built/$name" "$top/out/$name.new" || return
    done
    LC_ALL=C sort -o "$top/out/MANIFEST.new" -- "$room/MANIFEST" || return
    # Without its MANIFEST a program counts as one of other sources.
    rm -f -- "$top/out/MANIFEST"
    for name in "${names[@]}"; do
        mv -- "$top/out/$name.new" "$top/out/$name" || return
    done
    mv -- "$top/out/MANIFEST.new" "$top/out/MANIFEST"
}

# Removes all that this call's build leaves beside the programs and the log.
clear_away() {
    [[ -n $room ]] || return 0
    rm -f -- "$top"/out/*.new
    rm -rf -- "$room"
    room=''
}

# Proves the crates and builds the programs. Where it fails, the log says why.
build() {
    local status
    { copy_sources && has_room && can_run_there; } >>"$log" 2>&1 && prove && take_programs >>"$log" 2>&1
    status=$?
    clear_away
    return "$status"
}

# What a signal does to a call that waits or builds. rt is halted first, so that it starts nothing while its processes are looked for.
stop() {
    trap '' "${signals[@]}"
    if [[ -n $rt ]]; then
        # bash would say that it was killed.
        disown "$rt" 2>/dev/null
        kill -STOP "$rt" 2>/dev/null
        end_rt
    fi
    clear_away
    clear_line
    say "stopped before the programs were built; the next call begins again"
    exit 70
}

# Ends the call where it can't build.
expect_to_build() {
    if ! command -v rt >/dev/null; then
        say "there is no rt on the PATH: the command of a Rattle kit, with which the sources are proved. ./m11 runs the program in dist/ without it"
        exit 70
    fi
    if ! mkdir -p -- "$top/out" 2>/dev/null || [[ ! -w $top/out ]]; then
        say "the programs are built by somebody who may write to $top/out: its owner, or you in a copy of your own"
        exit 70
    fi
}

# Waits until no other call builds. The lock is on a folder, so there is no file of it to remove, and it goes when this script ends.
take_turn() {
    exec {lock}<"$top/out" || return
    flock -n "$lock" && return
    (($? == 1)) || return
    say "waiting for another call; its log: $log"
    until flock -n "$lock"; do
        sleep 0.1
    done
}

# Builds the programs, unless another call did so meanwhile.
build_in_turn() {
    local end
    expect_to_build
    trap stop "${signals[@]}"
    take_turn || exit 70
    if ! are_of_these_sources; then
        say "proving and building the programs, which takes minutes; log: $log"
        : >"$log" || exit 70
        if ! build; then
            end=$(tail -n 20 -- "$log" 2>/dev/null)
            say "it failed; the log ends:"
            echo "${end:-(there is nothing in it: it was removed, or the disk is full)}" >&2
            exit 70
        fi
    fi
    trap - "${signals[@]}"
    exec {lock}<&-
}
