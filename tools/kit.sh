# Sourced by the scripts that compile, link or run programs: finds the Rattle kit, which is for x86-64, and what rt builds.
kit=${RATTLE_HOME:-$(dirname "$(rt doc)")}
kit_tools=$kit/toolchain
own_compiler=$(command -v cc || true)

# where rt puts the C library and the program, below the top of the repository
library=crates/nadrzewie/out/libnadrzewie.a
replay=crates/replay/out/replay

# own_c PROGRAM FILE.. [FLAG..]: compile and link by the machine's own compiler
own_c() {
    "$own_compiler" -std=c17 -O2 -Wall -Wextra -Werror -Iinclude -o "$@"
}

# kit_clang OBJECT SOURCE [FLAG..]: compile by the kit's own clang, which has no C headers
kit_clang() {
    local object=$1 source=$2
    shift 2
    "$kit_tools/bin/clang" --target=x86_64-unknown-linux-gnu -std=c17 -fPIC -O2 "$@" -c "$source" -o "$object"
}

# kit_link PROGRAM FILE..: link objects and archives
kit_link() {
    local program=$1
    shift
    local said
    said=$("$kit/bin/rattle-link" --target x86_64-unknown-linux-gnu --toolchain "$kit_tools" -o "$program" "$@" 2>&1) ||
        { echo "$said" >&2; return 1; }
}

# c_program PROGRAM SOURCE.. [ARCHIVE..] [FLAG..]: a C program, by the machine's own compiler, or by the kit's where it has none
c_program() {
    local program=$1
    shift
    if [ -n "$own_compiler" ]; then
        own_c "$program" "$@"
        return
    fi
    local objects=() file object
    for file; do
        case $file in
        *.c)
            object=$program.$(basename "$file" .c).o
            kit_clang "$object" "$file" -Wall -Wextra -Werror -Iinclude || return
            objects+=("$object")
            ;;
        *) objects+=("$file") ;;
        esac
    done
    kit_link "$program" "${objects[@]}"
}

# run_program PROGRAM [ARGUMENT..]: what rt or the kit linked, over the kit's own C library
run_program() {
    "$kit_tools/lib/ld-linux-x86-64.so.2" --library-path "$kit_tools/lib" "$@"
}

# run_c PROGRAM [ARGUMENT..]: what c_program made
run_c() {
    if [ -n "$own_compiler" ]; then "$@"; else run_program "$@"; fi
}

# generator_program PROGRAM [FLAG..]: the generator of recorded calls, by c_program
generator_program() {
    local program=$1
    shift
    c_program "$program" peer/generate/*.c peer/server.c "$@"
}

# library_proved LOG: the C library is proved and built. What rt says goes into the file LOG, and out where it fails.
library_proved() {
    (cd crates/nadrzewie && rt lib) >"$1" 2>&1 || { cat "$1"; return 1; }
}

# replay_proved ROOT [READER]: the program replay is proved and built where it is not there, or its sources changed. What rt says
# goes into target/replay.log, and line by line, as it comes, to the command READER.
replay_proved() {
    local program=$1/$replay log=$1/target/replay.log
    if [ -x "$program" ] &&
        [ -z "$(find "$1/crates" "$1/crates.txt" -name out -prune -o -type f -newer "$program" -print -quit)" ]; then
        return
    fi
    mkdir -p "$1/target"
    # what is edited from here on is newer than the program
    touch "$1/target/replay.began"
    # rt builds a program to run it: here on a file without a call, on which it writes nothing
    (cd "$1/crates/replay" && rt run -- /dev/null) 2>&1 | tee "$log" | "${2:-nobody_reads}"
    [ "${PIPESTATUS[0]}" -eq 0 ] || { cat "$log" >&2; return 1; }
    touch -r "$1/target/replay.began" "$program"
}

nobody_reads() {
    cat >/dev/null
}
