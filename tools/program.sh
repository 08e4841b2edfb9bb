# Which program ./jps runs, and how it is proved and built. Read by ./jps and tools/ship, with `top`, the
# checkout's folder.
# shellcheck shell=bash disable=SC2154
out=$top/crates/jps/out
built=$out/jps
# Beside the program: the sum of its sources, its own sum, and the kit's line.
made=$out/made
log=$out/build.log
manifest=$top/dist/MANIFEST
# The program that the manifest tells of.
handed=""

# A status that is none of the program's own: nothing was run.
not_run=126
# The status of tools/build.py where a source was changed while it was proved.
changed_meanwhile=3

# Tells a line, if standard error takes it.
tell() { echo "jps: $*" >&2 || true; }

fail() {
    tell "$@"
    exit "$not_run"
}

# Reads what dist/MANIFEST says, by its words; the sums of the programs by their names. Returns whether there
# is one.
read_manifest() {
    local word value
    declare -gA told=() sums=()
    [ -f "$manifest" ] || return 1
    while read -r word value; do
        told[${word:-none}]=$value
        if [ "$word" = file ]; then
            word=${value%% *} value=${value#* }
            sums[${word:-none}]=${value%% *}
        fi
    done <"$manifest"
    sums[${told[program]-none}]=${told[sha256]-}
    handed=$top/dist/${told[program]-}
}

# The sum of a file; nothing waits for a pipe in its place.
sum_of() {
    local sum
    [ -f "$1" ] && sum=$(sha256sum <"$1") && echo "${sum%% *}"
}

note_made() { echo "$sources $(sum_of "$built") $(rt version)" >"$made.new" && mv -f "$made.new" "$made"; }

# Which source was changed since the lock of `rt ci` was taken, or is a link, behind which one may be that was
# not.
newer_than_lock() {
    CDPATH='' cd -- "$top" || return
    # shellcheck disable=SC2185
    tools/sources --list 2>/dev/null | find -files0-from - -maxdepth 0 \
        \( -type l -o \( -type f -o -path '*/*/*' \) -cnewer .git/rt-ci.lock \) -print -quit 2>&1
}

# Whether `rt ci` built the program from the sources as they stand: it leaves no sum, but takes its lock
# first.
is_of_gate() {
    [ -f "$top/.git/rt-ci.lock" ] && [ "$built" -nt "$top/.git/rt-ci.lock" ] &&
        [ ! -e "$made" ] && [ ! -e "$log" ] && [ -z "$(newer_than_lock)" ]
}

# Whether the program was proved and built here from the sources whose sum is $sources.
is_built() {
    local of sum
    [ -x "$built" ] || return 1
    if is_of_gate && command -v rt >/dev/null; then
        (trap '' XFSZ && note_made) 2>/dev/null || true
        return
    fi
    [ -f "$made" ] && read -r of sum _ 2>/dev/null <"$made" && [ "$of" = "$sources" ] && [ "$sum" = "$(sum_of "$built")" ]
}

# The programs of dist/ for this system: the first one that runs is taken.
names_here() {
    case $(uname -sm) in
        "Linux x86_64") echo "${told[program]-} x86_64-linux-static/jps" ;;
        "Linux aarch64") echo aarch64-linux/jps ;;
    esac
}

# Whether a program in dist/ was made from these sources, for this system. If so it has to be whole, and to
# run here.
is_handed() {
    local name said=""
    read_manifest && [ "${told[sources]-}" = "$sources" ] || return 1
    for name in $(names_here); do
        [ "${sums[$name]-}" ] || continue
        handed=$top/dist/$name
        [ "$(sum_of "$handed" 2>/dev/null)" = "${sums[$name]}" ] ||
            fail "dist/$name is damaged, as its sum is not that of dist/MANIFEST, and was not run:" \
                "'git checkout dist' gets it back, './jps --prove' makes it again"
        if said=$("$handed" --version 2>/dev/null) && [ "$said" = "jps ${told[version]-}" ]; then return; fi
        said=$("$handed" --version 2>&1) || true
    done
    [ -z "$said" ] || fail "${handed#"$top"/} does not run here: it needs a processor with ${told[processor]-} (on ARM" \
        "any of 64 bits), and said: $(echo "${said#*: line * }" | head -n 1)"
    return 1
}

# Begins a look that can be kept: its time is that of the file $began, which is "" where none can be made. As
# long as it holds its part of the lock of $out no other look clears up there.
begin_look() {
    local it
    began="" held=""
    # shellcheck disable=SC2064
    for it in HUP INT TERM; do trap "end_look; kill -s $it $$" "$it"; done
    mkdir -p "$out" 2>/dev/null && [ -r "$out" ] || return 0
    exec {held}<"$out"
    ! command -v flock >/dev/null || flock -ns "$held" 2>/dev/null || return 0
    began=$(trap '' HUP INT TERM && mktemp "$out/look.XXXXXX" 2>/dev/null) || return 0
    # (What is changed from now on has a later time than that file, if the clock ticks once.)
    sleep 0.02
}

# Writes what this look found, on a line, and the names of what it looked at, from crates/. Of the program in
# dist/ its folders are looked at too: another one may be put in their place, with another program in it, that
# is older than this look.
write_look() {
    local names=("${program#"$top"/}" "${made#"$top"/}")
    if [ "$program" = "$handed" ]; then names=("${handed#"$top"/}" dist/MANIFEST dist); fi
    if [ "$program" = "$handed" ]; then names+=("${names[0]%/*}"); fi
    printf '%s\n' "${names[0]}" &&
        { printf '%s\0' "${names[@]}" && "$top/tools/sources" --list; } |
        sed -z 's,^crates/,,; t; s,^,../,' &&
        printf '%s\0' "jps/out/looked.$at"
}

# Whether none of the names that were looked at is a link, nor the folder in which programs are built.
has_no_link() {
    local it names
    { IFS= read -r _ && mapfile -d '' -t names; } <"$1" || return 1
    for it in "" /jps/out "${names[@]/#//}"; do [ ! -L "$top/crates$it" ] || return 1; done
}

# Keeps what was found, so that the next call need not look. Where that cannot be kept, as on a full disk,
# nothing is; nor where files have times of whole seconds alone, as a change in the same second would not be
# seen; nor where one is a link, as what it leads to may be put in place of another that is older.
keep_look() {
    (
        trap '' XFSZ
        set -o pipefail
        at=$(find "$began" -printf '%T@') && [[ $at != *.0000000000 ]] && write_look >"$began.kept" &&
            has_no_link "$began.kept" && rm -f "$out"/looked* && mv -f "$began.kept" "$out/looked.$at"
    ) 2>/dev/null || true
}

# Ends a look. The last one of those that were under way at once takes away what killed ones have left.
end_look() {
    if [ "${began-}" ]; then rm -f "$began" "$began.kept" 2>/dev/null || true; fi
    if [ "${held-}" ]; then
        if flock -n "$held" 2>/dev/null; then rm -f "$out"/look.??????* 2>/dev/null || true; fi
        exec {held}<&-
    fi
    began="" held=""
    trap - HUP INT TERM
}

# Finds the program that is as the sources stand. Returns whether there is one.
look() {
    begin_look
    sources=$("$top/tools/sources") || fail "the sources cannot be read"
    program=""
    if is_built; then
        program=$built
    elif is_handed; then
        program=$handed
    fi
    if [ "$began" ] && [ "$program" ]; then keep_look; fi
    end_look
    [ "$program" ]
}

# How many checks run side by side: one for each processor, where memory is free for them.
at_once() {
    awk -v most="$(nproc)" '/^MemAvailable:/ { fit = int($2 / 2500000) - 1; if (fit < 1) fit = 1 }
        END { if (fit > 8) fit = 8; print fit < most ? fit : most }' /proc/meminfo
}

# Ends the build that this command waits for, and then the command, by a signal.
end_by() {
    trap '' INT TERM HUP
    kill "$builder" 2>/dev/null || true
    wait "$builder" || true
    trap - "$1" EXIT
    kill "-$1" $$
}

# Runs a command in the background and waits for it, so that a signal to this command ends both.
await() {
    local it status=0
    "$@" &
    builder=$!
    for it in INT TERM HUP; do
        # shellcheck disable=SC2064
        trap "end_by $it" "$it"
    done
    wait "$builder" || status=$?
    trap - INT TERM HUP
    return "$status"
}

# Proves what is left and builds the program. Where rt keeps a developer's work beside the crate, rt does it,
# which proves what changed alone, and leaves of the rest what it needs for the next change; else
# tools/build.py, which keeps no proofs, and is quicker from nothing. Either ends with this command, also
# where that is killed.
prove_and_make() {
    local bound=()
    if setpriv --pdeathsig TERM true 2>/dev/null; then bound=(setpriv --pdeathsig TERM); fi
    if [ -d "$out/incremental" ]; then
        await env -C "$top/crates/jps" "${bound[@]}" rt run -- --version >>"$log" 2>&1
    else
        await "${bound[@]}" "$top/tools/build.py" jps "$log" "$(at_once)"
    fi
}

# Keeps other calls from building at the same time: the second one waits. (Not crates/jps itself, which rt
# locks.)
take_lock() {
    local status=0
    exec 9<"$top/crates/jps/src"
    flock -n -E 75 9 2>/dev/null || status=$?
    if [ "$status" = 75 ]; then
        tell "another call is proving and building the program, and this one waits for it"
        await flock 9
    fi
}

# Proves and builds the program from the sources as they stand at the end of it.
build() {
    local before status first=""
    command -v rt >/dev/null || fail "the toolchain's command rt is not on the PATH$(why_not_handed)" \
        "(README.md, 'The two commands', says what to do without it)"
    if ! mkdir -p "$out" 2>/dev/null || ! : 2>/dev/null >>"$log"; then
        fail "the program cannot be built, as $out cannot be written"
    fi
    if [ ! -d "$out/libs" ] && [ ! -d "$out/incremental" ]; then
        first="; the first time this takes 12 to 24 minutes on four processors"
    fi
    tell "proving and building the program$first (log: $log)"
    # (without the program's own sum, so that the program is linked again, whatever became of it)
    rm -rf "$out"/looked* "$out"/*.tmp-* "$out"/libs/*.tmp-* "$out/libs/jps.sum"
    while true; do
        before=$sources status=0
        : >"$log"
        prove_and_make || status=$?
        sources=$("$top/tools/sources") || fail "the sources cannot be read"
        if [ "$status,$before" = "0,$sources" ]; then break; fi
        if [ "$status" != 0 ] && [ "$status" != "$changed_meanwhile" ]; then tell_log; fi
        tell "a source was changed meanwhile, so what it changes is proved again"
    done
    note_made || fail "$made cannot be written"
}

tell_log() {
    tell "not built; the end of the log says why:"
    tail -n 20 "$log" >&2 || true
    exit "$not_run"
}

# Why the program in dist/ does not serve, where there is one.
why_not_handed() {
    if read_manifest && [ "${told[sources]-}" != "$sources" ]; then
        echo ", and the program in dist/ was made from other sources"
    fi
}

# Says what became of `./jps --prove`, also whether the program in dist/ is the same.
tell_proved() {
    local kit
    read -r _ _ kit <"$made"
    echo "proved and built from these sources: $(readlink -f -- "$program")"
    if ! read_manifest; then
        echo "there is no program in dist/"
    elif [ "${told[sources]-}" != "$sources" ]; then
        echo "the program in dist/ was made from other sources"
    elif cmp -s "$program" "$handed"; then
        echo "the program in dist/ is the same, byte by byte"
    elif [ "$kit" != "${told[kit]-}" ]; then
        echo "the program in dist/ was made with another kit, ${told[kit]-}: its bytes were not compared"
    else
        fail "dist/${told[program]-} is not the program that was built"
    fi
}

# `./jps --prove`
prove_here() {
    take_lock
    sources=$("$top/tools/sources") || fail "the sources cannot be read"
    if ! is_built; then build; fi
    program=$built
    tell_proved
    trap - EXIT
    exit 0
}

answer_from() {
    trap - EXIT
    exec "$top/tools/text-of" "$1"
}

# Finds the program, or builds it.
find_program() {
    case $(uname -sm) in
        "Linux x86_64" | "Linux aarch64") if look; then return; fi ;;
    esac
    # Before the first build these two answer from the program's source; the gate compares that with the
    # program.
    case $#,${1-} in
        1,--help) answer_from help_text ;;
        1,--version) answer_from version_text ;;
    esac
    [ "$(uname -sm)" = "Linux x86_64" ] ||
        fail "no program in dist/ is for $(uname -sm) and these sources (edge/README.md says what runs where), and" \
            "Rattle's kit needs Linux on x86-64"
    take_lock
    if ! look; then
        build
        look || fail "a source was changed while the program was built"
    fi
    exec 9<&-
}

# What `./jps` does where the last look does not hold.
main() {
    local is_silent=""
    trap 'end_look; exit "$not_run"' EXIT
    if [ -d /proc/self/fd ] && [ ! -e /proc/self/fd/2 ]; then
        is_silent=yes
        exec 2>/dev/null
    fi
    if [ "$#,${1-}" = 1,--prove ]; then prove_here; fi
    find_program "$@"
    trap - EXIT
    if [ "$#,${1-}" = 1,--program ]; then
        readlink -f -- "$program"
        exit 0
    fi
    if [ "$is_silent" ]; then exec 2>&-; fi
    exec "$program" "$@"
}
