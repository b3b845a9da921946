# The kit, and what is made of the proved crates. To be read by bash from the top of the repository.

kit=$(dirname "$(dirname "$(readlink -f "$(command -v rt)")")")
kit_tools=$kit/toolchain

# the crates that a crate stands on, as crates.txt lists them
below() { # CRATE
    sed -n -E "s/^$1( staticlib)?: *//p" crates.txt
}

# the words for the kit's rattle, run in the folder of a crate or of a copy of it, over the libraries of the crates below it: those that rt has left in out/, and
# the kit's own
crate_words() { # CRATE
    local name root=src/lib.rt
    if [ -f "crates/$1/src/main.rt" ]; then root=src/main.rt; fi
    printf '%s\n' --crate-name "$1" "$root" --extern "std=$kit/rlibs/std.rlib" -L "dependency=$kit/rlibs"
    for name in $(below "$1"); do
        if [ -d "crates/$name" ]; then
            printf '%s\n' --extern "$name=$PWD/crates/$name/out/rlib/$name.rlib" -L "dependency=$PWD/crates/$name/out/rlib"
        else
            printf '%s\n' --extern "$name=$kit/rlibs/$name.rlib"
        fi
    done
    printf '%s\n' --antt-project "$kit/rattle/logic/antt-project.json" --logic-built "$kit/logic_built" --links "$1="
}

# target/staticlib/libhegtalim.a, which the kit makes of hegtalim_c where that and all below it is proved
build_archive() {
    (cd crates/hegtalim_c && rt lib) && name_archive
}

# target/bin/timetable, which the kit makes of the proved crate timetable, and then runs, here where there are no tables
build_program() {
    (cd crates/timetable && rt run </dev/null) && name_program
}

# the same right after `rt ci` in a checkout that had no out/ before: of what this has proved and left there, so that hegtalim_c alone is proved once more
build_archive_after_ci() {
    local words
    mapfile -t words < <(crate_words hegtalim_c)
    (cd crates/hegtalim_c && mkdir -p out &&
        "$kit/bin/rattle" build "${words[@]}" --crate-type staticlib --toolchain "$kit_tools" --backend llvm -o out/libhegtalim_c.a) && name_archive
}
build_program_after_ci() {
    name_program
}

name_archive() {
    mkdir -p target/staticlib && install -m 644 crates/hegtalim_c/out/libhegtalim_c.a target/staticlib/libhegtalim.a
}
name_program() {
    mkdir -p target/bin && install -m 755 crates/timetable/out/timetable target/bin/timetable
}
