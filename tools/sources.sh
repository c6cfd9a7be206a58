# For the scripts of this repository, which read this file.

# Patterns such as !(NAME) are read only after this.
shopt -s extglob

# What the program says that it was built from. It's written from the others, so no part of them.
sources_file=crates/mcrace/src/sources.rt

# Prints one SHA-256 of all that the program is built from: crates.txt, and sources, definitions and
# proofs but of crates of tests, by names and texts. $1 is the top of the repository.
source_hash() (
    cd "$1" || exit 1
    LC_ALL=C
    shopt -s globstar nullglob
    files=(crates.txt)
    for file in crates/!(test_*)/@(src|specs|proofs)/**/*.@(rt|antt); do
        [ "$file" = $sources_file ] || files+=("$file")
    done
    sha256sum "${files[@]}" | sha256sum | {
        read -r hash _
        echo "$hash"
    }
)

# Writes the hash into the source by which the program says it. $1 is the top of the repository.
write_sources() {
    cat >"$1/$sources_file" <<END
//! What the program is built from. \`./mcrace --build\` writes it.

/// The SHA-256 of all sources, definitions and proofs but of this file.
pub const SOURCES: &[u8] =
    b"sources $(source_hash "$1")\\n";
END
}

# Prints what the kept program was built from, or nothing. $1 is the top of the repository.
kept_hash() {
    local word hash
    read -r word hash 2>/dev/null <"$1/release/built-from" && [ "$word" = sources ] && echo "$hash"
}

# Prints the program that was built from the sources at hand, in the current folder: the kept one
# as it was kept, or the one that was built here; or nothing.
program_at_hand() {
    local sources hash
    sources=$(source_hash .)
    read -r hash _ < <(sha256sum release/mcrace)
    if [ "$(kept_hash .)" = "$sources" ] && grep -qx "program $hash" release/built-from; then
        echo release/mcrace
    elif [ -x crates/mcrace/out/mcrace ] &&
        [ "$(cat crates/mcrace/out/built-from 2>/dev/null)" = "$sources" ]; then
        echo crates/mcrace/out/mcrace
    fi
}
