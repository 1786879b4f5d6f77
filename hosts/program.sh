# A command over the library: what ./pag-find and ./pag-canvas share; they source it, with `here` for the repository's folder.

# run_program COMMAND NAME WORD..: runs hosts/NAME.c with these words. Library and program are built first if that was not done yet.
run_program() {
    local command=$1 name=$2
    shift 2
    local library=$here/target/host/libpag.a program=$here/target/hosts/pag-$name
    [ -f "$library" ] || echo "$command: building the library, once; its proofs take some minutes" >&2
    "$here/hosts/build" >/dev/null || {
        echo "$command: the library could not be built" >&2
        exit 1
    }
    if [ ! -x "$program" ] || [ "$library" -nt "$program" ] || [ "$here/hosts/$name.c" -nt "$program" ]; then
        command -v gcc >/dev/null 2>&1 || {
            echo "$command: there is no gcc, which compiles the program" >&2
            exit 1
        }
        mkdir -p "$(dirname "$program")"
        gcc -std=c11 -O2 -Wall -Wextra -I "$here/include" "$here/hosts/$name.c" "$library" -o "$program" || {
            echo "$command: the program could not be built" >&2
            exit 1
        }
    fi
    exec "$program" "$@"
}
