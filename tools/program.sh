# shellcheck shell=bash disable=SC2034,SC2154
# Read by gen2run, prove, bench/run, .ci/run, tools/package and the checks: where the program and the library stand, and whether they are those
# of the sources.
#
# Beside the proved program a sum of the sources is kept, which was taken before it was built. A program that has no sum, or another one
# than the sources have now, is older than they are, and none of these scripts runs it. An unproved program is kept under the sum of what
# it was built from. `top` is the top of the repository.
folder=$top/crates/gen2run
proved=$folder/out/gen2run
built_of=$folder/out/gen2run.sources
# The proved library for C, in one archive with what it takes besides the C library, and beside it its sum.
library=$top/crates/gen2_library/out/libgen2run.a

# The status of these scripts where there is no answer of the program: not one of its own, which go from 0 to 8.
NO_PROGRAM=9

# Prints the sum of the files whose names come in, each ended by a NUL.
sum_of() {
    LC_ALL=C sort -z | xargs -0 sha256sum | sha256sum
}

# Prints the sum of every file that a proof may read.
sources_sum() {
    (cd "$top" && find crates crates.txt HANDLES -name out -prune -o -type f -print0 | sum_of)
}

# Prints the sum of every file that a build without a proof reads.
code_sum() {
    (cd "$top" && find crates crates.txt tools/unproved \( -name out -o -path 'crates/*/specs' -o -path 'crates/*/proofs' -o -path 'crates/*/must-fail' \) -prune \
        -o -type f -print0 | sum_of) | cut -c 1-32
}

# Tells whether there is a proved program of the sources.
is_current() {
    [ -x "$proved" ] && [ -f "$built_of" ] && [ "$(cat "$built_of")" = "$(sources_sum)" ]
}

# To be called before a build with a proof: the sources are those of now.
begin_build() {
    sum_before=$(sources_sum)
}

# To be called after a build that ended well. It fails, and leaves no program, where none was made or a source was edited meanwhile.
end_build() {
    [ -x "$proved" ] || return 1
    if [ "$(sources_sum)" != "$sum_before" ]; then
        rm -f "$proved"
        echo "gen2run: a source was edited during the build, so its program is not kept" >&2
        return 1
    fi
    printf '%s\n' "$sum_before" >"$built_of"
}

# Where unproved programs are kept: in the checkout, or where it can't be written among the user's.
places_to_keep() {
    printf '%s\n' "$top/out/unproved" "${XDG_CACHE_HOME:-${HOME-}/.cache}/siulanke"
}

# Sets `kept` to what is built of the sources without a proof: `program`, or the `library` for C. Where there is none yet it says so and builds
# it, once for all who ask at a time. It fails where it can't be built.
find_kept() {
    local sum place places name=gen2run words=()
    [ "$1" = program ] || name=libgen2run_unproved.a words=(--library)
    sum=$(code_sum)
    mapfile -t places < <(places_to_keep)
    for place in "${places[@]}"; do
        kept=$place/$sum/$name
        [ -f "$kept" ] && return
    done
    for place in "${places[@]}"; do
        mkdir -p "$place/$sum" 2>/dev/null && [ -w "$place/$sum" ] && break
        place=
    done
    [ -n "$place" ] || {
        echo "gen2run: there is no place to keep a program in: ${places[*]}" >&2
        return 1
    }
    kept=$place/$sum/$name
    (
        exec 9>"$place/lock"
        command -v flock >/dev/null && flock 9
        [ -f "$kept" ] && exit
        echo "gen2run: building these sources without a proof, once, which takes a minute of processor time" >&2
        "$top/tools/unproved" "${words[@]}" "$kept.new" 9>&- || exit 1
        if [ "$(code_sum)" != "$sum" ]; then
            echo "gen2run: a source was edited during the build, so what it made is not kept" >&2
            exit 1
        fi
        mv "$kept.new" "$kept"
        # (what was built of older sources)
        find "$place" -mindepth 1 -maxdepth 1 -type d -mtime +7 -exec rm -r {} +
    ) || {
        rm -f "$kept.new"
        rmdir "$place/$sum" 2>/dev/null
        return 1
    }
}

# Sets `unproved` to the program that is built of the sources without a proof, or fails.
find_unproved() {
    local kept
    find_kept program && unproved=$kept
}

# Sets `unproved_library` to the library for C, so built.
find_unproved_library() {
    local kept
    find_kept library && unproved_library=$kept
}

# Tells whether there is a proved library for C of the sources.
has_library() {
    [ -f "$library" ] && [ -f "$library.sources" ] && [ "$(cat "$library.sources")" = "$(sources_sum)" ]
}

# Proves the library for C over the crates below it, which ./prove or .ci/run built, and keeps it, unless that was done for these sources. It
# fails where it can't be proved, or a source was edited meanwhile.
find_library() {
    local sum
    has_library && return
    sum=$(sources_sum)
    rm -f "$library" "$library.sources"
    mkdir -p "${library%/*}" && "$top/tools/library" "$library" || return 1
    if [ "$(sources_sum)" != "$sum" ]; then
        rm -f "$library"
        echo "gen2run: a source was edited during the build, so its library is not kept" >&2
        return 1
    fi
    printf '%s\n' "$sum" >"$library.sources"
}
