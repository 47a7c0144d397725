#!/bin/sh
# Tries the C and the Rust face on the archive of the proved code: the header and the C examples as C11 and C++17, the C test plain and under
# valgrind, images that only a bounded call gets through, the stack that a call takes, whole numbers as f64 against exact arithmetic, that the machine
# converts none of them, that the archive needs no library, the tests of the Rust crate, and the examples, whose text and whose answers are those that README.md and the header show.
# Where a tool is missing it says in one line what was not run, and goes on. On a machine that is not x86-64 the tools are those of tools/cross.
set -eu
cd "$(dirname "$0")/.."
. tools/cross

archive=target/staticlib/libgateway.a
made=target/face
warnings='-Wall -Wextra -Wpedantic -Werror'

has() { command -v "$1" >/dev/null 2>&1; }
missing() { echo "face: no $1 here, so not run: $2"; }
fail() { echo "face: $1"; exit 1; }

# Whether a file has these lines, one behind the other.
has_lines() { # FILE LINES
    WANTED=$2 awk '{ text = text $0 "\n" } END { exit !index("\n" text, "\n" ENVIRON["WANTED"] "\n") }' "$1"
}

# A command line and what it prints, as README.md shows them.
transcript() { # LINE
    printf '    $ %s\n' "$1"
    case $1 in target/*) set -- "tools/run $1" ;; esac
    sh -c "$1" </dev/null | sed 's/^/    /'
}

is_in_readme() { # TRANSCRIPT
    has_lines README.md "$1" || { echo 'face: README.md does not show this:'; echo "$1"; exit 1; }
}

# Each block of README.md in a language is a part of one of the examples in that language, and each of these is shown.
blocks_are_from() { # LANGUAGE EXAMPLE...
    language=$1
    shift
    awk -v language="$language" '
        function is_part(    name, found) {
            for (name in example) if (index(example[name], block) || index(example[name], deeper)) found = shown[name] = 1
            return found
        }
        FILENAME != "README.md" { example[FILENAME] = (FNR == 1 ? "\n" : example[FILENAME]) $0 "\n"; next }
        $0 == "```" language { inside = 1; block = deeper = "\n"; next }
        $0 == "```" { if (inside && !is_part()) bad = 1; inside = 0 }
        inside { block = block $0 "\n"; deeper = deeper ($0 == "" ? "" : "    ") $0 "\n" }
        END { for (name in example) if (!shown[name]) bad = 1; exit bad }' "$@" README.md || fail "what README.md shows in $language is not from $*"
}

# Compiles LANGUAGE source from standard input.
compile() { # COMPILER LANGUAGE STANDARD [WORDS...]
    compiler=$1 language=$2 standard=$3
    shift 3
    # shellcheck disable=SC2086
    "$compiler" -x "$language" "-std=$standard" $warnings -Iface/c - -x none "$@"
}

# The header, included twice, and the examples, which are run, three of them on the sample image.
header() { # COMPILER LANGUAGE STANDARD
    printf '#include "mdf_conversion.h"\n#include "mdf_conversion.h"\n' | compile "$1" "$2" "$3" -fsyntax-only
    for example in convert rewrite name invert; do compile "$1" "$2" "$3" "$archive" -o "target/$example" <"examples/$example.c"; done
    is_in_readme "$(transcript 'target/convert samples/tractor.mdf')"
    is_in_readme "$(transcript 'target/rewrite')"
    is_in_readme "$(transcript 'target/name samples/tractor.mdf')"
    is_in_readme "$(transcript 'target/invert samples/tractor.mdf')"
    echo "face: the header and the examples are clean $3"
}

# The lines of the example, from its first #include on, stand in the header's first comment.
header_has_example() {
    lines=$(sed -n '/^#include "mdf_conversion.h"$/,$p' examples/convert.c | sed -e 's/^/ *     /' -e 's/ *$//')
    has_lines face/c/mdf_conversion.h "$lines" || fail 'the example in the header is not examples/convert.c'
}

# One of the programs in face/c.
build() { # NAME
    # shellcheck disable=SC2086
    "${cross}gcc" -std=c11 -g $warnings -Iface/c "face/c/$1.c" "$archive" -lm -o "$made/$1"
}

# With an end from outside too, should the program's own watchdog not bark.
watched() { if has timeout; then timeout -k 5 300 "$@"; else "$@"; fi; }

# The judge is tools/nearest.py. A line with a wrong bit has to be found first.
rounding() {
    build rounding
    if printf 'u 3 4008000000000001\nend 1\n' | tools/run "$made/rounding" >/dev/null; then fail 'a wrong bit passes the test of rounding'; fi
    if has python3; then tools/nearest.py | tools/run "$made/rounding"; else missing python3 'whole numbers as f64 against exact arithmetic'; fi
}

# A gateway may have no floating-point unit: no code asks the language to convert a whole number, and no instruction of the archive converts one.
no_conversion() {
    if grep -rnE --include='*.rt' 'as f64|nearest_[iu](32|64)_to_f' crates; then fail 'a whole number is converted to a float by the language'; fi
    if ! has "${cross}objdump"; then missing "${cross}objdump" 'the look for conversions in the machine code'; return; fi
    "${cross}objdump" -d --no-show-raw-insn "$archive" >"$made/code"
    grep -q '<mdf_apply_signed>:' "$made/code" || fail 'objdump does not show the code of the archive'
    if grep -w '[a-z0-9]*cvt[a-z0-9]*' "$made/code"; then fail 'the machine converts a number in the archive'; fi
    echo 'face: no instruction of the archive converts a number'
}

# The header says that the archive needs no library: no code of it calls a function from outside. A loop that only clears or copies would become such a call.
no_library() {
    if ! has nm; then missing nm 'the look for functions from outside'; return; fi
    nm -u "$archive" >"$made/from_outside"
    if grep -w U "$made/from_outside"; then fail 'the archive needs a function from outside'; fi
    echo 'face: the archive needs no function from outside'
}

c_face() {
    header "${cross}gcc" c c11
    build test
    tools/run "$made/test"
    build hostile
    if [ "$cross" ]; then
        missing 'machine that is x86-64' 'images that only a bounded call gets through, whose watchdog does not wait for an emulator'
    else
        watched "$made/hostile" || { echo 'face: the work of a call is not bounded, or an answer is wrong'; exit 1; }
    fi
    build stack
    tools/run "$made/stack"
    rounding
    if [ "$cross" ]; then
        missing 'valgrind for x86-64' 'the C test under valgrind'
    elif has valgrind; then
        valgrind --quiet --error-exitcode=1 --leak-check=full "$made/test"
        echo 'face: valgrind finds no error in the C test'
    else
        missing valgrind 'the C test under valgrind'
    fi
}

# Where the machine is another, a command of the same name runs the one that was built.
through_run() {
    mkdir -p "$made/bin"
    printf '#!/bin/sh\nexec "%s" "%s/mdf-convert" "$@"\n' "$PWD/tools/run" "$commands" >"$made/bin/mdf-convert"
    chmod +x "$made/bin/mdf-convert"
    commands=$PWD/$made/bin
    export MDF_CONVERT="$commands/mdf-convert"
}

rust_face() {
    commands=${CARGO_TARGET_DIR:-$PWD/face/rust/target}/${CARGO_BUILD_TARGET:+$CARGO_BUILD_TARGET/}debug
    [ -z "$cross" ] || through_run
    (cd face/rust && cargo test --offline) >"$made/cargo.log" 2>&1 || { cat "$made/cargo.log"; exit 1; }
    awk '/^test result: ok/ { passed += $4 } END { print "Rust face: " passed " tests passed, 0 failed" }' "$made/cargo.log"
    for example in convert rewrite name invert; do
        is_in_readme "$(transcript "cargo run --quiet --offline --manifest-path face/rust/Cargo.toml --example $example")"
    done
    is_in_readme "$(shell_example examples/convert.sh)"
    rm -f target/back.mdf
    is_in_readme "$(shell_example examples/invert.sh)"
    echo 'Rust face: the examples in Rust and of the command print what README.md shows'
}

# The command was built with the tests.
shell_example() { # EXAMPLE
    PATH=$commands:$PATH
    grep -v '^#' "$1" | while IFS= read -r line; do transcript "$line"; done
}

[ -f "$archive" ] || { echo "face: no archive at $archive; tools/archive makes it"; exit 1; }
mkdir -p "$made"
header_has_example
blocks_are_from c examples/convert.c examples/rewrite.c examples/name.c examples/invert.c
blocks_are_from rust examples/convert.rs examples/rewrite.rs examples/name.rs examples/invert.rs
no_conversion
no_library
tools/run || { missing emulator 'the C test, the examples and the tests of the Rust crate'; exit 0; }
if has "${cross}gcc"; then c_face; else missing "${cross}gcc" 'the header as C11 and the C test'; fi
if has "${cross}g++"; then header "${cross}g++" c++ c++17; else missing "${cross}g++" 'the header as C++17'; fi
if has cargo && has cc && has_for_rust; then rust_face; else missing "${for_rust:+$for_rust, }cargo or cc" 'the tests of the Rust crate'; fi
