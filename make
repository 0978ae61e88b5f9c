#!/usr/bin/env bash
# Proves and builds programs, and the host library, with what they need and no more: `./make lister mapper`, `./make plover`. A program NAME is then
# crates/NAME/out/NAME, and the library crates/plover/out/libplover.a. What was made of the crates as they stand is not made again.
# `./make sum` and then `./make kept SUM` are for ./test, before and after a whole `rt ci`: the programs that this left count as made of the crates, if
# the crates are still the same, and the library is built over theirs.
set -euo pipefail
cd "$(dirname "${BASH_SOURCE[0]}")"
programs="equations inspector lister mapper"
library=plover

# A sum of all that something is made from: the kit, and every file of the crates.
crates_sum() {
    {
        rt version
        find crates crates.txt -path 'crates/*/out' -prune -o -type f -print0 | sort -z | xargs -0 sha256sum
    } | sha256sum
}

made_file() { # NAME
    if [ "$1" = "$library" ]; then echo "crates/$1/out/lib$1.a"; else echo "crates/$1/out/$1"; fi
}

# A file beside what is made says what it was made from.
is_made() { # NAME
    local file
    file=$(made_file "$1")
    [ -f "$file" ] && [ "$sum$(sha256sum < "$file")" = "$(cat "crates/$1/out/made" 2> /dev/null)" ]
}

note_made() { # NAME
    echo "$sum$(sha256sum < "$(made_file "$1")")" > "crates/$1/out/made"
}

# `rt run` proves a program, builds it and then runs it, here on nothing. What the program writes and how it ends is left out, since only
# whether it was run says that it is proved.
make_program() { # NAME
    { (cd "crates/$1" && rt run < /dev/null 2>&1 > /dev/null) || true; } |
        awk '/^rt: running / { ran = 1 } !ran { print; fflush() } END { exit !ran }'
}

# The crates below one, each once, and of those that its own line names the kit's libraries, as words of `rattle`.
library_words() { # NAME
    awk -v top="$1" -v kit="$kit" '
        !/^#/ && /:/ {
            split($0, halves, ":"); split(halves[1], head, " "); needs[head[1]] = halves[2]
        }
        function below(name, parts, n, i) {
            n = split(needs[name], parts, " ")
            for (i = 1; i <= n; i++) if (parts[i] in needs && !(parts[i] in met)) {
                met[parts[i]] = 1
                print "-L"; print "dependency=../" parts[i] "/out/rlib"
                below(parts[i])
            }
        }
        END {
            n = split("std " needs[top], named, " ")
            for (i = 1; i <= n; i++)
                print "--extern\n" named[i] "=" (named[i] in needs ? "../" named[i] "/out/rlib/" : kit "/rlibs/") named[i] ".rlib"
            below(top)
        }' crates.txt
}

# `rt ci` leaves the libraries that it proved, but no archive, and `rt lib` does not build over what `rt ci` left: where no check kept its own work it
# would prove each crate once more. So the archive is built over these libraries, which proves again the crate of the archive alone.
make_library_over_ci() {
    local kit words
    kit=$(dirname "$(dirname "$(readlink -f "$(command -v rt)")")")
    # The stamp is of a check, whose libraries `rt ci` puts back in the place of its own.
    ! ls crates/*/out/rlib/stamp > /dev/null 2>&1 || return 1
    mapfile -t words < <(library_words "$library")
    (cd "crates/$library" && "$kit/bin/rattle" build --crate-name "$library" src/lib.rt "${words[@]}" -L "dependency=$kit/rlibs" \
        --antt-project "$kit/rattle/logic/antt-project.json" --logic-built "$kit/logic_built" --links "$library=" --jobs 2 \
        --crate-type staticlib --toolchain "$kit/toolchain" --backend llvm -o "out/lib$library.a")
}

make_library() {
    (cd "crates/$library" && rt lib)
}

[ $# -gt 0 ] || {
    echo "usage: ./make NAME.. | sum | kept SUM" >&2
    exit 2
}
sum=$(crates_sum)
if [ "$1" = sum ]; then
    echo "$sum"
    exit
fi
if [ "$1" = kept ]; then
    [ "$sum" = "${2:-}" ] || {
        echo "make: the crates have changed since" >&2
        exit 1
    }
    for name in $programs; do note_made "$name"; done
    make_library_over_ci || make_library
    note_made "$library"
    exit
fi
for name in "$@"; do
    [[ " $programs $library " == *" $name "* ]] || {
        echo "make: $name is neither a program ($programs) nor the library ($library)" >&2
        exit 2
    }
    is_made "$name" && continue
    if [ "$name" = "$library" ]; then make_library; else make_program "$name"; fi
    note_made "$name"
done
