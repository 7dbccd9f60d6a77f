# Sourced by the scripts from the top of the repository: what they share. It defines functions and changes nothing.
#
# The kit is for x86-64 Linux, and so are the proved programs and archives. It has the loader and the C library that they
# run with: `outside/runner` runs a program by them.

# ---- what a script says

# The answer to -h: the comment at the head of the script.
usage() {
    sed -n '2,${/^#/!q;s/^# \{0,1\}//p;}' "$0"
}

# Status 1 says that a check failed, status 2 that a script could not do its work.
fail() {
    echo "${0##*/}: $*" >&2
    exit 1
}

cannot() {
    echo "${0##*/}: $*" >&2
    exit 2
}

# Says how many seconds a step took, since the script set `began_at` or the last step ended.
took() { # STEP
    ended_at=$(date +%s)
    echo "${0##*/}: $1: $((ended_at - began_at)) s" >&2
    began_at=$ended_at
}

# Takes apart the words of a script that has options or none: -h is answered, and too many words are refused.
take_words() { # MOST WORD...
    most=$1
    shift
    case ${1:-} in
    -h | --help)
        usage
        exit 0
        ;;
    -?*) cannot "there is no option $1; see ${0##*/} -h" ;;
    esac
    [ $# -le "$most" ] || cannot "it takes $most words at most, and here are $#; see ${0##*/} -h"
}

# A whole number that a 64-bit program reads.
is_number() {
    case $1 in
    '' | *[!0-9]*) return 1 ;;
    esac
    [ ${#1} -le 18 ]
}

# ---- the kit

has() {
    command -v "$1" >/dev/null 2>&1
}

# Under a short PATH, as a job of the night has it, the kit is the one that built what is there: `build` has noted it.
find_kit() {
    has rt && return
    noted=$(cat "${top:-.}/target/built/kit" 2>/dev/null)
    [ ! -x "$noted/bin/rt" ] || PATH=$PATH:$noted/bin
    has rt || cannot "there is no rt: install the Rattle kit, and put its rt on PATH"
}

# The folder of the kit that `rt` belongs to.
kit_folder() {
    find_kit
    dirname "$(dirname "$(readlink -f "$(command -v rt)")")"
}

# The folder that the kit's toolchain has: its clang, its linker, and the loader and the C library for x86-64.
toolchain() {
    [ "$(uname -m)" = x86_64 ] || cannot "the Rattle kit is for x86-64 Linux, and this machine is $(uname -m)"
    of_kit=$(kit_folder) || exit 2
    [ -x "$of_kit/toolchain/bin/clang" ] || cannot "the kit at $of_kit has no toolchain"
    echo "$of_kit/toolchain"
}

# A toolchain like the kit's, but that a script stands in for its clang: rattle hands its LLVM code to that. The script
# finds the kit's own clang as $clang.
stand_in_toolchain() { # FOLDER SCRIPT
    like=$(toolchain) || exit 2
    mkdir -p "$1/bin"
    link_but "$like" "$1" bin
    link_but "$like/bin" "$1/bin" clang
    printf '#!/bin/sh\nclang=%s\n%s\n' "$like/bin/clang" "$2" >"$1/bin/clang"
    chmod +x "$1/bin/clang"
}

# Links all that a folder has into another, but for one.
link_but() { # FOLDER LIKE ONE
    for one in "$1"/*; do [ "${one##*/}" = "$3" ] || ln -s "$one" "$2/${one##*/}"; done
}

# LLVM code as text, before any pass.
llvm_text() { # BITCODE TRIPLE TEXT
    "$(toolchain)/bin/clang" --target="$2" -Wno-override-module -S -emit-llvm -O0 -Xclang -disable-llvm-passes -x ir \
        "$1" -o "$3"
}

# The bitcode that outside/bitcode keeps of a crate is for x86-64 and for aarch64, each as rattle makes it. For
# WebAssembly it is that for aarch64, which asks nothing of its processor, where its text and the words of the compiler
# name the other machine: its layout, its triple, and the processor of each function; and where a pair of values that a
# function answers stands as it does on aarch64. All else is as rattle has it.
code_for() { # TRIPLE
    case $1 in x86_64-*) echo target/code/x86_64 ;; *) echo target/code/aarch64 ;; esac
}

text_for() { # TRIPLE NAME
    # In WebAssembly a pointer becomes a number of eight bytes by `ptrtoint`: `ptrtoaddr` asks that it has eight itself.
    case $1 in wasm32-*) pairs=wide_pairs numbers='s/ptrtoaddr/ptrtoint/g' ;; *) pairs=cat numbers= ;; esac
    sed -e "$numbers" -e '/^target datalayout/d' -e "s/^target triple.*/target triple = \"$1\"/" \
        -e 's/"target-cpu"="[^"]*"//g; s/"target-features"="[^"]*"//g' "$(code_for "$1")/$2.ll" | $pairs
}

# Rattle puts a value into memory by its place in bytes, a pointer in eight of them, and reads a pair back as one. With
# pointers of four bytes the second of some pairs would be looked for elsewhere, so a pointer in one is read as a number
# of eight bytes, and made a pointer where it is taken out. Such a pair may be read, answered and taken apart, and
# nothing else, and a pointer may stand in no other compound: else this fails.
wide_pairs() {
    awk '
        function wide(text) { gsub(/ptr/, "i64", text); return text }
        /^@.*[{[].*[^a-z]ptr / || / x ptr\]/ { exit unknown = 1 }
        {
            rest = $0
            line = ""
            pointer = ""
            while (match(rest, /\{ (i1|i8|i16|i32|ptr), ptr \}|\{ ptr, (i1|i8|i16|i32) \}/)) {
                pair = substr(rest, RSTART, RLENGTH)
                line = line substr(rest, 1, RSTART - 1) wide(pair)
                rest = substr(rest, RSTART + RLENGTH)
                if ($3 == "extractvalue") pointer = (rest ~ /, 0$/ ? pair ~ /\{ ptr,/ : pair ~ /, ptr \}/) ? $1 : ""
                else if ($1 != "define" && $1 != "ret" && $3 != "load" && $3 != "call") exit unknown = 1
            }
            if (pointer == "") print line rest
            else {
                sub(/^ *[^ ]+ /, "  " pointer ".wide ", line)
                print line rest
                print "  " pointer " = inttoptr i64 " pointer ".wide to ptr"
            }
        }
        END { if (unknown) print "a pair of an unknown form"; exit unknown }'
}

words_for() { # TRIPLE NAME
    echo "--target=$1"
    grep -v -e '^--target=' -e '^-march=' "$(code_for "$1")/$2.words"
}

# Marks in the code of a program (outside/marks.sh) bring notes of its frames, which on aarch64 keep some instructions
# in their order. A release is compiled with such notes, so that its code is the one that is looked at.
frame_notes=-fforce-dwarf-frame

compile_for() { # TRIPLE NAME OBJECT [WORD...]
    triple=$1
    crate=$2
    object=$3
    shift 3
    text_for "$triple" "$crate" >"$object.ll" && ! grep -q '^a pair of an unknown form$' "$object.ll" ||
        cannot "the bitcode of $crate has a pointer in a compound, for which there is no place in WebAssembly"
    # shellcheck disable=SC2046
    "$(toolchain)/bin/clang" $(words_for "$triple" "$crate") "$@" -c -x ir "$object.ll" -o "$object" && rm "$object.ll"
}

# What a module has besides its program, where a Linux program has the C library (release/wasm/host.c).
compile_host() { # OBJECT
    "$(toolchain)/bin/clang" --target=wasm32-unknown-unknown -std=c11 -O2 -Wall -Wextra -Werror -ffreestanding \
        -mbulk-memory -msign-ext -c release/wasm/host.c -o "$1"
}

# A WebAssembly object as a module of a release.
link_module() { # OBJECT MODULE
    compile_host "$2.host.o" || return
    "$(toolchain)/bin/ld.lld" -flavor wasm --no-entry --export=main --allow-undefined --stack-first --gc-sections \
        -z stack-size=4194304 --strip-all "$1" "$2.host.o" -o "$2" && rm "$2.host.o"
}

# ---- what else is needed: a C compiler for x86-64, make, pkg-config, a reader of x86-64 machine code, cargo, python3

cc=${CC:-cc}
c_packages='gcc libc6-dev make'
objdump=objdump
objdump_package=binutils

# Asks Debian once which packages there are.
refresh_packages() {
    [ -n "${refreshed-}" ] || apt-get update -qq || return
    refreshed=yes
}

# Installs Debian's packages, and says so before.
install_packages() { # WHY PACKAGE...
    why=$1
    shift
    has apt-get || cannot "$why, and there is no apt-get to install it by; Debian has it in: $*"
    echo "${0##*/}: $why; installing $* with apt-get" >&2
    # shellcheck disable=SC2086
    { refresh_packages && DEBIAN_FRONTEND=noninteractive apt-get install -y -qq ${alone-} "$@"; } >&2 </dev/null ||
        cannot "apt-get could not install $*"
}

# The same without what Debian recommends beside them, which for a browser is a desktop.
install_alone() { # WHY PACKAGE...
    alone=--no-install-recommends
    install_packages "$@"
    alone=''
}

# A compiler without the static C library is none for us.
c_links() {
    has "$cc" && has make && echo 'int main(void) { return 0; }' | "$cc" -static -x c -o /dev/null - 2>/dev/null
}

need_c() {
    c_links && return
    # shellcheck disable=SC2086
    install_packages "$cc with a static C library, or make, is missing" $c_packages
    c_links || cannot "$cc does not link a static program for x86-64"
}

# A release is linked for both kinds of machine: for x86_64 by this machine's own tools, for aarch64 by those that cross
# over.
tool_for() { # KIND TOOL
    if [ "$1" = "$(uname -m)" ]; then echo "$2"; else echo "$1-linux-gnu-$2"; fi
}

c_links_for() { # KIND
    has "$(tool_for "$1" gcc)" && has "$(tool_for "$1" objcopy)" && has "$(tool_for "$1" objdump)" &&
        echo 'int main(void) { return 0; }' | "$(tool_for "$1" gcc)" -static -x c -o /dev/null - 2>/dev/null
}

need_c_for() { # KIND
    ! c_links_for "$1" || return 0
    case $1 in
    x86_64) c_packages_for='gcc libc6-dev' ;;
    *) c_packages_for='gcc-aarch64-linux-gnu libc6-dev-arm64-cross' ;;
    esac
    # shellcheck disable=SC2086
    install_packages "a C compiler for $1 with a static C library is missing" $c_packages_for
    c_links_for "$1" || cannot "$(tool_for "$1" gcc) does not link a static program for $1"
}

# What is released for aarch64 is run by it.
need_emulator() {
    has qemu-aarch64 && return
    install_alone "qemu-aarch64 is missing" qemu-user
    has qemu-aarch64 || cannot "there is still no qemu-aarch64"
}

# The WebAssembly programs run by it.
need_node() {
    has node && return
    install_packages "node is missing" nodejs
    has node || cannot "there is still no node"
}

# The page has programs that wait for their next line: wasm-opt makes them so.
need_binaryen() {
    has wasm-opt && return
    install_packages "wasm-opt is missing" binaryen
    has wasm-opt || cannot "there is still no wasm-opt"
}

# What the page is tried with: a checker of the types that its comments give, a reader of what a browser prints, and the
# browsers, headless. It has to be tried in Chromium. Firefox Debian has not for every machine; where it is not to be had,
# that is said.
need_browsers() {
    missing=''
    has tsc || missing="$missing node-typescript"
    has pdftotext || missing="$missing poppler-utils"
    has chromium || missing="$missing chromium"
    # shellcheck disable=SC2086
    [ -z "$missing" ] || install_alone "what the page is tried with is missing" $missing
    for tool in tsc pdftotext chromium; do has "$tool" || cannot "there is still no $tool"; done
    has firefox-esr || (install_alone "firefox-esr is missing" firefox-esr) ||
        echo "${0##*/}: without firefox-esr the page is tried in chromium alone" >&2
}

# The browsers that are there, by the names that page/trial/ gives them.
browsers() {
    echo chromium
    ! has firefox-esr || echo firefox
}

# objdump knows the processors that it was built for, and every C compiler brings the one for its own.
need_objdump() {
    has "$objdump" && return
    install_packages "$objdump is missing" "$objdump_package"
    has "$objdump" || cannot "there is still no $objdump"
}

# The benchmark links for this machine's own processor.
need_native_c() {
    has cc && return
    install_packages "cc is missing" gcc libc6-dev
}

need_rust() {
    has cargo && return
    install_packages "cargo is missing" cargo
    has cargo || cannot "there is still no cargo"
}

# A C program finds the header and the archive by it (release/nedrubal.pc.in).
need_pkg_config() {
    has pkg-config && return
    install_packages "pkg-config is missing" pkg-config
    has pkg-config || cannot "there is still no pkg-config"
}

# The member's reader of messages runs by it (examples/listen.py).
need_python() {
    has python3 && return
    install_packages "python3 is missing" python3
    has python3 || cannot "there is still no python3"
}

# ---- what crates.txt says of a crate

# Lines 'NAME LIBRARY..' of the crates that are listed; a library of the kit may be among the libraries.
listing() {
    awk '{ sub(/#.*/, "") } split($0, part, ":") == 2 { split(part[1], word, " "); print word[1], part[2] }' crates.txt
}

is_listed() { # NAME
    listing | awk -v name="$1" '$1 == name { found = 1 } END { exit !found }'
}

libraries_of() { # NAME
    listing | awk -v name="$1" '$1 == name { for (k = 2; k <= NF; k++) print $k }'
}

# The repository's libraries that a crate stands on, near or far.
crates_below() { # NAME
    listing | awk -v name="$1" '
        { below[$1] = $0 }
        function visit(crate, list, n, k) {
            if (!(crate in below) || crate in seen) return
            seen[crate] = 1
            if (crate != name) print crate
            n = split(below[crate], list, " ")
            for (k = 2; k <= n; k++) visit(list[k])
        }
        END { visit(name) }'
}

# While the crates of PORTING-LEFT.md are out of the tree, what needs one of them is left out, and said; where that page
# is gone, a crate that is missing is a fault.
is_left() { # NAME
    ! is_listed "$1" && grep -qw "$1" PORTING-LEFT.md 2>/dev/null
}

# The first of some crates that are left, if one is.
left_of() { # NAME...
    for left_one in "$@"; do
        if is_left "$left_one"; then
            echo "$left_one"
            return
        fi
    done
}

# ---- what is built: from the present sources or not at all

# One number for all that a program or an archive is built from: the crates' own files, their list and the kit. What an
# editor leaves beside them is none of it, and what `rt` makes in out/ neither.
sources() {
    find_kit
    { rt version && find crates crates.txt -name out -prune -o \
        -type f \( -name '[!.]*.rt' -o -name '[!.]*.antt' -o -name crates.txt \) -exec sha256sum {} + | sort; } |
        sha256sum | cut -d' ' -f1
}

# Whether a file was built from the present sources.
is_built() { # FILE
    [ -f "$1" ] && [ "$(cat "target/built/${1##*/}" 2>/dev/null)" = "$(sources)" ]
}

# Runs the command that builds a file, and notes what the sources were before it began: if somebody changes a source
# meanwhile, the file is built again the next time.
build() { # FILE COMMAND...
    file=$1
    shift
    mkdir -p target/built || cannot "target/ cannot be written"
    rm -f "target/built/${file##*/}"
    before=$(sources)
    "$@" || return
    kit_folder >target/built/kit
    echo "$before" >"target/built/${file##*/}"
}

# Keeps the lines of `rt` in a log and counts the crates that are proved, on one line where standard error is a
# terminal. What another run on this machine has proved of the same files is not proved again, and not counted.
count_proved() { # NAME LOG
    of=$(($(crates_below "$1" | wc -l) + 1))
    proved=0
    : >"$2"
    while IFS= read -r line; do
        printf '%s\n' "$line" >>"$2"
        case $line in
        logic=proved*) proved=$((proved + 1)) ;;
        *) continue ;;
        esac
        if [ -t 2 ]; then
            printf '\r%s: proved %d of %d' "$1" "$proved" "$of" >&2
        else
            echo "$1: proved $proved of $of" >&2
        fi
    done
    if [ -t 2 ] && [ "$proved" -gt 0 ]; then echo >&2; fi
}

# What `rt` says in a crate's folder, with the crates that it proves counted. It knows which crates have changed, and
# proves those alone.
rt_in() { # NAME VERB
    mkdir -p target/log
    {
        case $2 in
        run) (cd "crates/$1" && rt run </dev/null 2>&1 >/dev/null) ;;
        *) (cd "crates/$1" && rt "$2" </dev/null 2>&1) ;;
        esac
        echo "rt: status $?"
    } | count_proved "$1" "target/log/$1.$2"
}

# `rt run` proves a program, builds it, and runs it; here on no input.
prove_program() { # NAME
    rm -f "crates/$1/out/$1"
    rt_in "$1" run
    grep -q "^rt: running out/$1;" "target/log/$1.run" && mkdir -p target/bin && cp "crates/$1/out/$1" "target/bin/$1"
}

# The proved program, at target/bin/NAME.
need_program() { # NAME
    is_built "target/bin/$1" && return
    [ -f "crates/$1/src/main.rt" ] || cannot "there is no program $1 in crates/"
    echo "$1: proving what has changed and building it; all of it takes some minutes" >&2
    build "target/bin/$1" prove_program "$1" && return
    cat "target/log/$1.run" >&2
    cannot "$1 is not proved; see target/log/$1.run"
}

# The libraries below a crate, each in its own out/ as a proof of the present sources built it. What rt ci leaves there
# does not serve: it keeps libraries from several runs, and rattle refuses one that was proved over another build of one
# below it. `rt run` and `rt check` build anew what does not fit.
has_libraries() { # NAME
    for library in $(crates_below "$1"); do
        [ -f "crates/$library/out/rlib/$library.rlib/format" ] || return
    done
}

need_libraries() { # NAME
    is_built "target/bin/$1" && has_libraries "$1" && return
    rt_in "$1" check
    grep -q '^rt: status 0$' "target/log/$1.check" && has_libraries "$1" && return
    cat "target/log/$1.check" >&2
    cannot "$1 is not proved; see target/log/$1.check"
}

# What rattle, the prover and compiler that `rt` calls, reads of a crate, for a machine of some kind: words from the
# crate's folder.
rattle_words() { # NAME KIND
    words_kit=$(kit_folder) || exit 2
    root=src/lib.rt
    [ ! -f "crates/$1/src/main.rt" ] || root=src/main.rt
    echo "--crate-name $1 $root --extern std=$words_kit/rlibs/std.rlib"
    for library in $(libraries_of "$1"); do
        if is_listed "$library"; then
            echo "--extern $library=../$library/out/rlib/$library.rlib"
        else
            echo "--extern $library=$words_kit/rlibs/$library.rlib"
        fi
    done
    for library in $(crates_below "$1"); do echo "-L dependency=../$library/out/rlib"; done
    echo "-L dependency=$words_kit/rlibs --antt-project $words_kit/rattle/logic/antt-project.json --links $1="
    [ "$root" = src/main.rt ] || echo '--crate-type staticlib'
    [ "$2" = x86_64 ] || echo "--target=$2-unknown-linux-gnu"
}

# Proves a program or a static library over the libraries below it, and keeps the verdict in a folder.
check_over_libraries() { # NAME KIND FOLDER LOG
    words=$(rattle_words "$1" "$2") && of_kit=$(kit_folder) || exit 2
    # shellcheck disable=SC2086
    (cd "crates/$1" && "$of_kit/bin/rattle" check $words --logic-built "$of_kit/logic_built" --jobs 2 \
        -o "$3") >"$4" 2>&1 </dev/null && grep -q '^logic=proved ' "$4"
}

# Builds what was proved, by a toolchain: a program's object, or a static library.
build_checked() { # NAME KIND FOLDER TOOLCHAIN FILE LOG
    words=$(rattle_words "$1" "$2") && of_kit=$(kit_folder) || exit 2
    # shellcheck disable=SC2086
    (cd "crates/$1" && "$of_kit/bin/rattle" build $words --crate-checked "$3" --toolchain "$4" --backend llvm \
        -o "$5") >"$6" 2>&1 </dev/null
}

# ---- a proved program, run to its end

# A shell that a signal ends takes what it runs with it, and then ends by that signal itself.
running=''
kept=''
end_with_all() {
    for one in $running; do kill "$one" 2>/dev/null; done
    for one in $running; do wait "$one" 2>/dev/null; done
    running=''
    [ -z "$kept" ] || rm -rf "$kept"
}
end_by() { # SIGNAL
    end_with_all
    trap - EXIT "$1"
    kill -s "$1" $$
}
take_signals() {
    kept=$(mktemp -d) || cannot "there is no room in ${TMPDIR:-/tmp}"
    trap end_with_all EXIT
    # shellcheck disable=SC2064
    for signal in HUP INT QUIT ALRM TERM USR1 USR2; do trap "end_by $signal" "$signal"; done
}

# A stream that is closed is said before anything is done: a file that is opened next would take its place.
need_output() {
    (: 3>&1) 2>/dev/null || fail "could not write: standard output is closed"
}
need_input() {
    (: 3<&0) 2>/dev/null || fail "could not read: standard input is closed"
}

# Standard output is the program's own; what it says on standard error is kept until it ends. It runs beside the shell,
# which hears a signal while it waits. Leaves `status`.
run_to_end() { # PROGRAM [WORD...]
    exec 4<&0
    outside/runner "$@" <&4 4<&- 2>"$kept/said" &
    running="$running $!"
    wait "$!"
    status=$?
    running=${feeder-}
    [ -s "$kept/said" ] || return 0
    cat "$kept/said" >&2
    case $(head -n 1 "$kept/said") in
    usage:*) status=2 ;;
    esac
    [ "$status" -ne 0 ] || status=1
}

# The same, and a copy of what it reads is kept, which has each byte before the program has it.
run_and_keep_input() { # PROGRAM [WORD...]
    mkfifo "$kept/input" || cannot "there is no room in ${TMPDIR:-/tmp}"
    exec 5<&0
    tee "$kept/input" <&5 5<&- >"$kept/copy" 2>"$kept/unread" &
    feeder=$!
    running=$feeder
    exec <"$kept/input" 5<&-
    run_to_end "$@"
    # A program that ended early leaves its feeder behind.
    kill "$feeder" 2>/dev/null
    wait "$feeder"
    running=''
    if [ "$status" -eq 0 ] && [ -s "$kept/unread" ]; then
        echo "${0##*/}: could not read: $(sed -n 's/^tee: //; 1p' "$kept/unread")" >&2
        status=1
    fi
}

# Whether a line of what a program prints of that copy passes a test of awk.
prints_of_copy() { # PROGRAM TEST
    outside/runner "target/bin/$1" <"$kept/copy" | awk "$2 { found = 1; exit } END { exit !found }"
}

# Runs a proved program on the lines, or the messages, of a file or of standard input. A message that is refused is
# status 1, and with --whole an input that is not one whole stream, which `listen` says on standard error; with
# --strict, a line that is refused or no call is status 3. Since messages do not show that, the program `evening` says
# it of the same lines. `broadcast` tells the lines from a number on alone.
serve_lines() { # NAME [--strict] [--from N] [--whole] [FILE]
    served=$1
    shift
    strict=no
    from=''
    whole=''
    if [ "${1:-}" = --strict ] && [ "$served" != listen ]; then
        strict=yes
        shift
    elif [ "${1:-}" = --whole ] && [ "$served" = listen ]; then
        whole=--whole
        shift
    fi
    if [ "${1:-}" = --from ] && [ "$served" = broadcast ]; then
        { is_number "${2:-}" && [ "$2" -ge 1 ]; } || cannot "--from takes the number of a line, from 1 on; see ${0##*/} -h"
        from=$2
        shift 2
    fi
    take_words 1 "$@"
    need_output
    # The file is opened here, where the caller names it.
    if [ $# -eq 1 ]; then
        [ -f "$1" ] && [ -r "$1" ] || [ -p "$1" ] || [ -c "$1" ] || cannot "$1 is no file that can be read"
        exec <"$1"
    fi
    need_input
    cd "$top" || exit 2
    toolchain >/dev/null || exit 2
    need_program "$served"
    [ "$strict" = no ] || need_program evening
    take_signals
    if [ "$served" = listen ]; then
        # shellcheck disable=SC2086
        run_and_keep_input target/bin/listen $whole
        [ "$status" -ne 0 ] || ! prints_of_copy listen '$1 == "refused"' || status=1
    elif [ "$strict" = yes ]; then
        run_and_keep_input "target/bin/$served" ${from:+--from "$from"}
        [ "$status" -ne 0 ] || ! prints_of_copy evening '$1 != "0"' || status=3
    else
        run_to_end "target/bin/$served" ${from:+--from "$from"}
    fi
    exit "$status"
}

# The proved archive of a static library, at target/staticlib/libNAME.a.
need_archive() { # NAME
    outside/bitcode "$1" || exit
}

# What a release is made from, and one number for all of it.
release_of='VERSION CHANGELOG.md HANDLES crates crates.txt docs examples gateway outside page release'
release_sources() {
    {
        sources
        # shellcheck disable=SC2086
        find $release_of -name out -prune -o -type f ! -name '.*' ! -name '*~' ! -name '#*#' -exec sha256sum {} + \
            2>/dev/null | sort
    } | sha256sum | cut -d' ' -f1
}

# The release, in target/release/.
need_release() {
    [ -f target/release/SHA256SUMS ] && [ "$(cat target/built/release 2>/dev/null)" = "$(release_sources)" ] && return
    outside/release >&2 || exit
}

# The independent program. cargo itself sees what has changed.
cargo_target=${CARGO_TARGET_DIR:-target/cargo}
reference=$cargo_target/release/reference

need_reference() {
    need_rust
    CARGO_TARGET_DIR=$cargo_target cargo build --release --offline --quiet --manifest-path reference/Cargo.toml ||
        cannot "the reference does not build"
}
