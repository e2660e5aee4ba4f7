#!/usr/bin/env bash
# Proves jpgsuite, builds it and installs it: the program, a link to it for each tool, manual pages and completions. Then it
# rotates a picture with what it installed.
set -euo pipefail
unset CDPATH

kits="rattle-kit-13b or rattle-kit-13f, logic dac8208d650f15bf"
tools=(jpegtran djpeg cjpeg rdjpgcom wrjpgcom)

usage() {
    cat <<END
./install.sh [PREFIX]               proves jpgsuite, builds it, installs it into PREFIX (default: ~/.local) and tries it
./install.sh --cpu NAME [PREFIX]    the same for processors of this kind: x86-64-v2 (the default) or x86-64-v3
./install.sh --uninstall [PREFIX]   removes what was installed there
./install.sh --help                 prints this

PREFIX/bin gets jpgsuite, jpegtran, djpeg, cjpeg, rdjpgcom and wrjpgcom, PREFIX/share their manual pages and completions
for bash, zsh and fish. PREFIX/share/jpgsuite/installed lists all of it, for --uninstall: a package leaves that file out.
A file that is there already and isn't of jpgsuite is never replaced: nothing is installed then.
At the end the installed jpegtran rotates example/colour.jpg, and the status is 1 unless that gives example/turned.jpg.

The crates are proved side by side, and what was proved on this machine before, also by .ci/run, isn't proved again. With
--cpu x86-64-v3 (vectors of 256 bits: 3 to 9 % less time) the program is then built once more for it, which takes about two
minutes. A program ends with status 127 where the processor lacks something.

It needs rt, the command of the Rattle kit ($kits), on PATH. What rt prints
goes to crates/jpg_suite/out/install.log.

Environment:
  DESTDIR            is prepended to each path that is written, for packages
  JPGSUITE_PROGRAM   a program that was built before: it is installed as it is, nothing is proved, and rt isn't needed
END
}

fail() {
    echo "install.sh: $*" >&2
    exit 1
}

# Whether there is nothing of this name, or a file of jpgsuite: each of them names it, and links of commands are to it.
is_ours() {
    if [ -L "$1" ]; then
        [ "$(readlink -- "$1")" = jpgsuite ]
    else
        [ ! -e "$1" ] || { [ -f "$1" ] && grep -aqs jpgsuite "$1"; }
    fi
}

# Whether a file or a folder of this name can be made.
can_be_made() {
    local above
    above=$(dirname -- "$1")
    while [ ! -e "$above" ]; do above=$(dirname -- "$above"); done
    [ -d "$above" ] && [ -w "$above" ]
}

# Makes a folder with all that is installed, except the program.
stage() {
    local tool to=$1
    mkdir -p "$to/bin" "$to/share/man/man1"
    (cd "$to/share" && mkdir -p bash-completion/completions zsh/site-functions fish/vendor_completions.d)
    for tool in "${tools[@]}"; do
        ln -s jpgsuite "$to/bin/$tool"
        cp "man/$tool.1" "$to/share/man/man1/"
    done
    cp man/jpgsuite.1 "$to/share/man/man1/"
    for tool in jpgsuite "${tools[@]}"; do
        cp completions/jpgsuite.bash "$to/share/bash-completion/completions/$tool"
        cp completions/jpgsuite.fish "$to/share/fish/vendor_completions.d/$tool.fish"
    done
    cp completions/_jpgsuite "$to/share/zsh/site-functions/"
    chmod -R u=rwX,go=rX "$to"
}

# Appends to `order` the crates that a crate uses, directly or not, and then the crate itself: rt builds them in this order.
order=()
order_of() {
    local name
    for name in $(sed -n "s/^$1://p" crates.txt); do
        # Crates of the kit have no line, and aren't proved here.
        [[ " ${order[*]} " == *" $name "* ]] || ! grep -q "^$name:" crates.txt || order_of "$name"
    done
    order+=("$1")
}

# Copies the crates that the program stands on, without the edits that the gate tries, to a repository of its own.
copy_crates() {
    local name part
    mkdir -p "$1/.git" "$1/crates"
    cp HANDLES "$1/"
    for name in "${order[@]}"; do
        grep "^$name:" crates.txt >> "$1/crates.txt"
        mkdir "$1/crates/$name"
        for part in src specs proofs args stdin stdout; do
            [ ! -e "crates/$name/$part" ] || cp -r "crates/$name/$part" "$1/crates/$name/"
        done
    done
}

# How many seconds each crate took where the gate was measured, by the table of docs/EVIDENCE.md: of a crate that is missing there, none.
declare -A took=()
read_times() {
    local name seconds
    while read -r name seconds; do took[$name]=$seconds; done < <(
        sed -n 's/^| `\([a-z_]*\)` |[^|]*| *\([0-9]*\) *|[^|]*|$/\1 \2/p' docs/EVIDENCE.md 2> /dev/null
    )
}

# Of the crates in one state, proved or left: the seconds of the longest chain in which each uses the one before, or of all of
# them, shared out to the processors, where that is longer. Crates that were proved before are in neither.
declare -A state_of=()
seconds_of() {
    local name used most=0 sum=0
    local -A chain=()
    for name in "${order[@]}"; do
        chain[$name]=0
        for used in $(sed -n "s/^$name://p" crates.txt); do
            [ "${chain[$used]:-0}" -le "${chain[$name]}" ] || chain[$name]=${chain[$used]}
        done
        [ "${state_of[$name]:-left}" = "$1" ] || continue
        chain[$name]=$((${chain[$name]} + ${took[$name]:-0}))
        sum=$((sum + ${took[$name]:-0}))
        [ "${chain[$name]}" -le "$most" ] || most=${chain[$name]}
    done
    sum=$((sum / $(nproc 2> /dev/null || echo 1)))
    echo "$((sum > most ? sum : most))"
}

# After so many seconds: how long the rest takes, by what those took that are done.
rest_of() {
    local proved left
    proved=$(seconds_of proved)
    left=$(seconds_of left)
    [ "$proved" = 0 ] || [ "$left" = 0 ] || echo "; about $(((left * $1 / proved + 59) / 60)) min are left"
}

# Reads what rt ci prints, and writes all of it to a log; shows each crate when it is done, and about how long the rest takes.
show_crates() {
    local line name done=0 began=$SECONDS
    read_times
    while IFS= read -r line; do
        printf '%s\n' "$line" >> "$1"
        name=${line#rt: }
        name=${name%% *}
        case $line in
        "rt: $name proved" | "rt: $name is kept: "*)
            done=$((done + 1))
            case $line in
            *" proved") state_of[$name]=proved line="proved" ;;
            *) state_of[$name]=kept line="proved before, on this machine" ;;
            esac
            line="$line, after $SECONDS s$(rest_of "$((SECONDS - began))")"
            printf '  %s of %s: %s %s\n' "$done" "${#order[@]}" "$name" "$line"
            ;;
        "rt: "*" NOT PROVED"* | "rt: waiting for "* | "rt: "*": another run on this machine "*) printf '  %s\n' "${line#rt: }" ;;
        esac
    done
}

# Builds the program for another processor in a repository where rt ci has proved it, with the commands by which rt builds one:
# what was proved says nothing of processors.
build_for() {
    local name kit libraries=()
    kit=$(dirname -- "$(dirname -- "$(readlink -f -- "$(command -v rt)")")")
    for name in "${order[@]}"; do
        [ ! -d "$1/crates/$name/out/rlib" ] || libraries+=(-L "dependency=../$name/out/rlib")
    done
    cd "$1/crates/jpg_suite" || return
    "$kit/bin/rattle" build --crate-name jpg_suite src/main.rt --cpu="$cpu" \
        --extern jpg_cli=../jpg_cli/out/rlib/jpg_cli.rlib "${libraries[@]}" \
        --extern std="$kit/rlibs/std.rlib" -L dependency="$kit/rlibs" --antt-project "$kit/rattle/logic/antt-project.json" \
        --logic-built "$kit/logic_built" --toolchain "$kit/toolchain" -o out/jpg_suite.o &&
        "$kit/bin/rattle-link" --target x86_64-unknown-linux-gnu --toolchain "$kit/toolchain" -o out/jpg_suite out/jpg_suite.o \
            "$kit/c/libos_c.a" "$kit/c/liblibc_c.a"
}

# Proves and builds the program, and runs it once, on the input that is stored with it.
build() {
    local found log=$PWD/crates/jpg_suite/out/install.log
    command -v rt > /dev/null ||
        fail "rt, the command of the Rattle kit ($kits), isn't on PATH; JPGSUITE_PROGRAM=FILE installs a jpgsuite that was built before, without the kit"
    command -v python3 > /dev/null || fail "python3 isn't on PATH, and rt needs it"
    found=$(rt version 2>&1) || true
    case $found in
    "rattle-kit-13b logic dac8208d650f15bf" | "rattle-kit-13f logic dac8208d650f15bf") ;;
    *ModuleNotFoundError*) fail "rt needs all of Python 3 (Debian's python3, and not python3-minimal): ${found##*ModuleNotFoundError: }" ;;
    *) fail "rt version says '$found', but jpgsuite is proved with $kits" ;;
    esac
    order_of jpg_suite
    mkdir -p "${log%/*}"
    : > "$log"
    echo "proving the ${#order[@]} crates of jpgsuite with $found (what an earlier run proved isn't proved again), for $cpu"
    echo "log: $log"
    # Side by side, and what another run on this machine proved is taken, also one of .ci/run.
    copy_crates "$work/crates"
    (cd "$work/crates" && rt ci 2>&1) | show_crates "$log" || log_failed
    if [ "$cpu" != x86-64-v2 ]; then
        # rt ci builds for x86-64-v2 alone.
        echo "  building the program for $cpu, after $SECONDS s; that takes about two minutes"
        (build_for "$work/crates") >> "$log" 2>&1 || log_failed
    fi
    cp "$work/crates/$program" "$program"
    "$program" "${words[@]}" < crates/jpg_suite/stdin > "$work/answer" || fail "$program failed on crates/jpg_suite/stdin"
}

# Shows what a failed build printed.
log_failed() {
    grep -v ': proved$' "$log" >&2 || true
    fail "jpgsuite wasn't built: what rt printed is above, and in $log"
}

# Puts a file into its place under another name, and then renames it: until it is complete, what was there stays, and can be run.
put() {
    local new="$3.jpgsuite-new"
    if ! install -m "$1" -- "$2" "$new" || ! mv -f -- "$new" "$3"; then
        rm -f -- "$new"
        fail "$3 wasn't written, and what was there stays; ./install.sh --uninstall $(printf %q "$prefix") removes what was installed"
    fi
}

# The main job, done by what was installed.
try_it() {
    local call="$root/bin/jpegtran -rotate 90 example/colour.jpg"
    if ! "$root/bin/jpegtran" -rotate 90 example/colour.jpg > "$work/turned.jpg" ||
        ! cmp -s "$work/turned.jpg" example/turned.jpg; then
        fail "what was installed doesn't work: $call doesn't write what example/turned.jpg has"
    fi
    echo "tried: $call writes what example/turned.jpg has"
}

install_all() {
    local dir name line names=() folders=() made=() above=0
    stage "$work/stage"
    mapfile -t names < <(cd "$work/stage" && find . -type f -o -type l | sed 's,^\./,,' | LC_ALL=C sort)
    names=(bin/jpgsuite "${names[@]}" "$list")
    for name in "${names[@]}"; do
        is_ours "$root/$name" || fail "$root/$name is there already and isn't of jpgsuite: nothing was installed"
        can_be_made "$root/$name" || fail "can't write $root/$name: nothing was installed"
    done

    mapfile -t words < crates/jpg_suite/args
    if [ -n "${JPGSUITE_PROGRAM:-}" ]; then
        program=$JPGSUITE_PROGRAM
        [ -f "$program" ] && [ -x "$program" ] || fail "JPGSUITE_PROGRAM is no program: $program"
        echo "nothing is proved here: $program is installed as it is"
        "$program" "${words[@]}" < crates/jpg_suite/stdin > "$work/answer" || fail "$program failed on crates/jpg_suite/stdin"
    else
        program=crates/jpg_suite/out/jpg_suite
        build
    fi
    cmp -s "$work/answer" crates/jpg_suite/stdout ||
        fail "the program wrote something else than crates/jpg_suite/stdout: nothing was installed"
    echo "its one run wrote what crates/jpg_suite/stdout has; that took $SECONDS s in all"
    cp "$program" "$work/stage/bin/jpgsuite"

    # Which folders are made: the root and those above it are counted, those below it have names.
    dir=$root
    while [ ! -d "$dir" ]; do
        above=$((above + 1))
        dir=$(dirname -- "$dir")
    done
    mapfile -t folders < <(for name in "${names[@]}"; do
        while name=$(dirname "$name") && [ "$name" != . ]; do echo "$name"; done
    done | LC_ALL=C sort -u)
    for name in "${folders[@]}"; do
        [ -d "$root/$name" ] || made=("$name" "${made[@]}")
    done
    # An earlier install made others.
    if [ -f "$root/$list" ]; then
        while read -r line name; do
            case $line in
            file) [[ " ${names[*]} " == *" $name "* ]] || ! is_ours "$root/$name" || rm -f -- "$root/$name" ;;
            folder) [[ " ${made[*]} " == *" $name "* ]] || made=("$name" "${made[@]}") ;;
            above) [ "$above" -gt "$name" ] || above=$name ;;
            esac
        done < "$root/$list"
    fi

    # The list of what is installed is written first, so that it can be removed however this ends.
    mkdir -p "$work/stage/$(dirname "$list")"
    {
        printf 'file %s\n' "${names[@]}"
        [ ${#made[@]} = 0 ] || printf 'folder %s\n' "${made[@]}" | LC_ALL=C sort -r
        echo "above $above"
    } > "$work/stage/$list"
    (umask 022 && mkdir -p -- "$root" && cd -- "$root" && mkdir -p -- "${folders[@]}")
    put 644 "$work/stage/$list" "$root/$list"
    for name in "${names[@]}"; do
        case $name in
        bin/jpgsuite) put 755 "$work/stage/$name" "$root/$name" ;;
        bin/*) [ "$(readlink -- "$root/$name")" = jpgsuite ] || ln -sfn jpgsuite "$root/$name" ;;
        "$list") ;;
        *) put 644 "$work/stage/$name" "$root/$name" ;;
        esac
    done

    cat <<END
$("$program" --version) is installed in $root:
  bin: jpgsuite, and links to it, its commands ${tools[*]}
  share/man/man1: a manual page of each
  share/bash-completion/completions, share/zsh/site-functions, share/fish/vendor_completions.d: completions
Where PREFIX/bin comes first on PATH it hides others of these names.
With the package bash-completion, bash loads completions of ~/.local, /usr/local and /usr by itself; otherwise ~/.bashrc needs this line:
  . $(printf %q "$prefix/share/bash-completion/completions/jpgsuite")
fish finds those of ~/.local, /usr/local and /usr. zsh needs this one in ~/.zshrc, before compinit, unless the folder is on its fpath:
  fpath=($(printf %q "$prefix/share/zsh/site-functions") \$fpath)
${DESTDIR:+DESTDIR=$(printf %q "$DESTDIR") }./install.sh --uninstall $(printf %q "$prefix") removes all of it.
END
    case ":$PATH:" in
    *":$prefix/bin:"*) ;;
    *) [ -n "${DESTDIR:-}" ] || echo "$prefix/bin isn't on PATH." ;;
    esac
    try_it
}

uninstall() {
    local line name i dir lines=() left=0
    [ -f "$root/$list" ] || fail "nothing of jpgsuite is installed in $root (there is no $root/$list)"
    mapfile -t lines < "$root/$list"
    for line in "${lines[@]}"; do
        name=${line#* }
        case $line in
        "file "*)
            if is_ours "$root/$name"; then
                rm -f -- "$root/$name"
            else
                echo "install.sh: $root/$name isn't of jpgsuite any more, and stays" >&2
                left=1
            fi
            ;;
        "folder "*) [ ! -d "$root/$name" ] || rmdir --ignore-fail-on-non-empty -- "$root/$name" ;;
        "above "*)
            dir=$root
            for ((i = 0; i < name; i++)); do
                [ ! -d "$dir" ] || rmdir --ignore-fail-on-non-empty -- "$dir"
                dir=$(dirname -- "$dir")
            done
            ;;
        esac
    done
    [ "$left" = 0 ] || exit 1
    echo "jpgsuite was taken away from $root"
}

action=install_all
prefix=""
cpu=x86-64-v2
while [ $# -gt 0 ]; do
    word=$1
    shift
    case $word in
    --help) usage && exit 0 ;;
    --uninstall) action=uninstall ;;
    --cpu)
        case ${1:-} in
        x86-64-v2 | x86-64-v3) cpu=$1 && shift ;;
        *) fail "--cpu takes x86-64-v2 or x86-64-v3" ;;
        esac
        ;;
    -*) fail "unknown option $word (./install.sh --help lists them)" ;;
    "") fail "PREFIX is empty" ;;
    *)
        [ -z "$prefix" ] || fail "two prefixes: $prefix and $word"
        prefix=$word
        ;;
    esac
done
[ -n "$prefix" ] || prefix=${HOME:?is not set: give a PREFIX}/.local
[ "$prefix" = / ] || prefix=${prefix%/}
case $prefix in /*) ;; *) prefix=$PWD/$prefix ;; esac
root=${DESTDIR:-}$prefix
case $root in /*) ;; *) root=$PWD/$root ;; esac
case ${JPGSUITE_PROGRAM:-/} in /*) ;; *) JPGSUITE_PROGRAM=$PWD/$JPGSUITE_PROGRAM ;; esac
# What was installed, and which folders were made for it.
list=share/jpgsuite/installed

cd "$(dirname "$0")"
work=$(mktemp -d)
trap 'rm -rf "$work"' EXIT
"$action"
