# Sourced by outside/root after machine.sh: which instructions of a program came of one function, wherever the compiler
# has put them. It defines functions and changes nothing.
#
# The LLVM code that rattle hands to its clang is compiled once more with marks: every instruction says, as a
# debugger's lines are said, whether it stands in that function or in what it calls (line 1) or elsewhere (line 2). LLVM
# carries such marks through its passes and makes the same instructions with them as without, but that it may fold a sum
# into one `lea` with them and not without: `same_code` asks for that, function by function.

# The LLVM code of a program, as FOLDER/handed.ll, and the words by which the kit's clang compiles it, as FOLDER/words.
handed_code() { # NAME FOLDER
    outside/bitcode "$1" || exit
    cp "target/code/x86_64/$1.ll" "$2/handed.ll" && cp "target/code/x86_64/$1.words" "$2/words" || exit 2
}

# The same for another machine.
handed_code_for() { # TRIPLE NAME FOLDER
    outside/bitcode "$2" aarch64 || exit
    text_for "$1" "$2" >"$3/handed.ll" && words_for "$1" "$2" >"$3/words" || exit 2
}

# LLVM code as lines 'FUNCTION is there', 'FUNCTION does OPERATION' and 'FUNCTION calls FUNCTION'. A call of LLVM's own,
# as a move of bytes, is an operation.
llvm_code() { # TEXT
    awk '
        function symbol(text) {
            if (!match(text, /@("[^"]*"|[^ "(]+)\(/)) return ""
            text = substr(text, RSTART + 1, RLENGTH - 2)
            gsub(/"/, "", text)
            return text
        }
        /^define / { name = symbol($0); print name " is there" }
        /^  [^ \]]/ && name != "" {
            text = $0
            sub(/^ +(%[^ ]+ = )?(tail |musttail |notail )?/, "", text)
            word = text
            sub(/ .*/, "", word)
            to = word == "call" ? symbol(text) : ""
            if (to ~ /^llvm\./) word = to
            else if (to != "") print name " calls " to
            else if (word == "call") word = "call-indirect"
            print name " does " word
        }
        /^}/ { name = "" }' "$1"
}

# A function and all that it calls, by such lines.
with_callees() { # FUNCTION CODE
    awk -v name="$1" '
        $2 == "calls" { calls[$1, ++callees[$1]] = $3 }
        END {
            queue[last = 1] = name
            seen[name] = 1
            for (at = 1; at <= last; at++) {
                name = queue[at]
                print name
                for (k = 1; k <= callees[name]; k++) if (!seen[calls[name, k]]++) queue[++last] = calls[name, k]
            }
        }' "$2"
}

# LLVM code with marks, by a list of the functions that are marked 1. The mark of a function refers to a record of it.
with_marks() { # LIST TEXT
    awk '
        NR == FNR { listed[$1]; next }
        /^define / {
            match($0, /@("[^"]*"|[^ "(]+)\(/)
            name = substr($0, RSTART + 1, RLENGTH - 2)
            gsub(/"/, "", name)
            line[++count] = name in listed ? 1 : 2
            own = 1000000 + 2 * count
            sub(/ \{$/, " !dbg !" own " {")
            inside = 1
        }
        inside && /^  [^ ]/ && !/\[$/ { $0 = $0 ", !dbg !" (own + 1) }
        /^}/ { inside = 0 }
        { print }
        END {
            print "!llvm.dbg.cu = !{!1000000}"
            print "!llvm.module.flags = !{!999999}"
            print "!999997 = !DIFile(filename: \"marks\", directory: \"\")"
            print "!999998 = !DISubroutineType(types: !{})"
            print "!999999 = !{i32 2, !\"Debug Info Version\", i32 3}"
            print "!1000000 = distinct !DICompileUnit(language: DW_LANG_C, file: !999997, emissionKind: LineTablesOnly)"
            for (k = 1; k <= count; k++) {
                own = 1000000 + 2 * k
                print "!" own " = distinct !DISubprogram(name: \"f" k "\", file: !999997, type: !999998, " \
                    "spFlags: DISPFlagDefinition | DISPFlagOptimized, unit: !1000000)"
                print "!" (own + 1) " = !DILocation(line: " line[k] ", scope: !" own ")"
            }
        }' "$1" "$2"
}

# Assembly with marks as what one function does and calls. Where some of it stands inside another function, that one 'is
# there', and an instruction in it that has lost its mark counts as the first one's. Behind `//`, and on x86-64 behind
# `#`, stands a comment.
marked_code() { # FUNCTION ASSEMBLY
    awk -v marked="$1" '
        function add(text) { mark[++count] = now; does[count] = text }
        function tell() {
            if (stands) print name " is there"
            for (k = 1; k <= count; k++) if (mark[k] == 1 || stands && mark[k] == 0) print marked " " does[k]
            count = stands = 0
        }
        /^[^ \t.#\/].*:/ { name = $1; gsub(/"|:$/, "", name); now = 0 }
        /^\t\.loc\t/ { now = $3 }
        /%/ { x86_64 = 1 }
        /^\t[a-z]/ {
            sub(/\/\/.*/, "")
            if (x86_64) sub(/#.*/, "")
            text = $0
            gsub(/[ \t]+/, " ", text)
            goes = $1 ~ /^(call|j|b$|b\.|bl$|cb|tb)/
            add("does " $1 (goes && text ~ /\*/ ? "-indirect" : "") " at " name ":" text)
            if (now == 1) stands = 1
            if (goes && $NF !~ /^(\.L|\*)/) { to = $NF; gsub(/"|@PLT$/, "", to); add("calls " to) }
        }
        /^\.Lfunc_end/ { tell() }
        END { print marked " is there" }' "$2"
}

# Compiles FOLDER/handed.ll with marks for one function, by the words for clang. Leaves the lines of the LLVM code as
# FOLDER/handed, those of what the function becomes as FOLDER/machine, and the assembly as FOLDER/marked.s.
compile_marked() { # FUNCTION FOLDER WORD...
    function=$1
    folder=$2
    shift 2
    llvm_code "$folder/handed.ll" >"$folder/handed"
    with_callees "$function" "$folder/handed" >"$folder/list"
    with_marks "$folder/list" "$folder/handed.ll" >"$folder/marked.ll"
    "$(toolchain)/bin/clang" "$@" -mllvm -use-unknown-locations=Enable -S -x ir "$folder/marked.ll" \
        -o "$folder/marked.s" || cannot "the kit's clang does not take LLVM code with marks"
    marked_code "$function" "$folder/marked.s" >"$folder/machine"
}

assemble() { # KIND ASSEMBLY OBJECT
    "$(toolchain)/bin/clang" --target="$1-unknown-linux-gnu" -c "$2" -o "$3" ||
        cannot "the kit's clang does not assemble what it made"
}

# The functions of an object, a line each, with their instructions, where each stands and what it refers to. What fills
# the room between two of them, and does nothing, says nothing; so does the number of a function in a constant's name.
functions_of() { # OBJECT
    "$objdump" -dr --no-show-raw-insn "$1" | awk '
        /^[0-9a-f]+ <.*>:$/ { if (text != "") print text; text = $2 }
        /^ *[0-9a-f]+:\t|: R_/ && !/\t(data16 |cs )*nop|\txchg +%ax,%ax/ {
            gsub(/[ \t]+/, " ")
            gsub(/\.LCPI[0-9]+_/, ".LCPI_")
            text = text ";" $0
        }
        END { print text }' | sort
}

# The same functions without `lea` and `inc`, which neither divide nor multiply, and so without where an instruction
# stands and where a jump goes: a folded sum moves both.
without_sums() { # FUNCTIONS
    sed 's/;/\n/g' "$1" | sed 's/^ *[0-9a-f]*: //; /^\(lea\|inc\) /d; s/^\(j[a-z]*\) .*/\1/'
}

# Two objects have the same functions, sums aside; says which they have not.
same_code() { # OBJECT OBJECT FOLDER
    functions_of "$1" >"$3/first"
    functions_of "$2" >"$3/second"
    [ -s "$3/first" ] || cannot "$objdump does not take $1"
    cmp -s "$3/first" "$3/second" && return
    without_sums "$3/first" >"$3/first.plain"
    without_sums "$3/second" >"$3/second.plain"
    cmp -s "$3/first.plain" "$3/second.plain" && return
    diff "$3/first" "$3/second" | sed -n 's/^[<>] <\([^>]*\)>:.*/\1 is another function with marks/p' | sort -u >&2
    return 1
}

# The proved functions of a linked program, or of an object whose `main` has a name there, a line each: the name and the
# instructions, without what a linker fills in. That is where a jump or a call goes, and where other data stands: on
# aarch64 the number that is added to an address, or that stands behind one, and whether the address of a page comes
# from `adrp` or from `adr` (outside/release says why).
linked_functions() { # KIND FILE [MAIN]
    "$(tool_for "$1" objdump)" -d --no-show-raw-insn "$2" | awk -v kind="$1" -v main="${3:-}" '
        function tell() {
            if (name ~ /::|^nedrubal_(evening|why|broadcast|listen|exchange|night)$/) print name text
            text = ""
        }
        /^[0-9a-f]+ <.*>:$/ {
            tell()
            name = $2
            gsub(/[<>]|:$/, "", name)
            if (name == "main") name = main
        }
        /^ *[0-9a-f]+:\t/ {
            sub(/^ *[0-9a-f]+:\t/, "")
            sub(/[ \t]*(#|\/\/) .*/, "")
            sub(/ *<.*>.*/, "")
            gsub(/[ \t]+/, " ")
            sub(/ $/, "")
            if ($0 ~ /^(data16 |cs )*nop|^xchg %ax,%ax|^udf/) next
            if ($1 ~ /^(call|j|b$|b\.|bl$|cb|tb|adrp?$)/) sub(/[0-9a-f]+$/, "")
            sub(/-?0x[0-9a-f]+\(%rip\)/, "(%rip)")
            if (kind == "aarch64") sub(/^adr /, "adrp ")
            if (kind == "aarch64" && $1 ~ /^(add|ld|st)/) sub(/, #(0x)?[0-9a-f]+\]?$/, "")
            if (kind == "aarch64" && $1 ~ /^(ld|st)/) sub(/\]$/, "")
            text = text ";" $0
        }
        END { tell() }' | sort
}
