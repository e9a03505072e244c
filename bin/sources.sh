# What tells which sources a program was made of. The launcher and the scripts of bin/ read this file; `top` is the repository's folder.
#
# A program stands beside a file sources.sha256 with these lines:
#   kit LINE        what `rt version` printed
#   commit ID       the commit of the sources
#   program SUM     the sha256 of the program
#   sources SUM     the sha256 of all sources, as `sources_sum` makes it
#   index SUM       the sha256 of what git lists of them, as `index_sum` makes it
#   crate NAME      a line for each crate that the program is built of

# The value of a line of the file sources.sha256 in the folder.
told() { sed -n "s/^$2 //p" "$1/sources.sha256" 2>/dev/null; }

# The folders and files that the proof and the build of the program read, by the crates that the file names. Edits and tests are not among them.
parts() {
    awk '$1 == "crate" { for (k = 1; k <= split("src specs proofs", part); k++) print "crates/" $2 "/" part[k] }
         END { print "HANDLES"; print "crates.txt" }' "$1/sources.sha256"
}

# The sum of the sources: of the lines of `sha256sum` for all of their files in the order of their names.
sources_sum() {
    (cd "$top" && parts "$1" | while IFS= read -r part; do [ -e "$part" ] && printf '%s\0' "$part"; done |
        xargs -0 sh -c 'find "$@" -type f -print0' find | LC_ALL=C sort -z | xargs -0 sha256sum | sha256sum | cut -c 1-64)
}

# The sum of the names and objects that git lists for the sources, and for the program itself where it is the one in bin/. A file that differs
# from what is listed, or is gone, is listed twice.
index_sum() {
    own=
    [ "$1" = "$top/bin" ] && own=bin/t2verdict-x86_64-linux
    GIT_OPTIONAL_LOCKS=0 git -C "$top" ls-files -s -m -- ${own:+"$own"} HANDLES crates crates.txt 2>/dev/null |
        awk 'FNR == NR { if ($1 == "crate") is_read["crates/" $2 "/src"] = is_read["crates/" $2 "/specs"] = is_read["crates/" $2 "/proofs"] = 1; next }
             split($4, part, "/") < 3 || (part[1] "/" part[2] "/" part[3]) in is_read' "$1/sources.sha256" - | sha256sum
}

# Whether git finds the sources as they are recorded.
is_told_by_git() {
    [ -e "$top/.git" ] && command -v git >/dev/null || return 1
    listed=$(index_sum "$1")
    [ "${listed%% *}" = "$(told "$1" index)" ]
}

# Whether the program in the folder is the one that its file sources.sha256 tells of, and was made of the sources as they stand. Where git
# cannot tell at once (an edited file, a copied folder, no git), all files are read.
is_of_these_sources() {
    [ -x "$1/t2verdict-x86_64-linux" ] && [ -s "$1/sources.sha256" ] || return 1
    is_told_by_git "$1" && return 0
    [ "$(sha256sum < "$1/t2verdict-x86_64-linux" | cut -c 1-64)" = "$(told "$1" program)" ] &&
        [ "$(sources_sum "$1")" = "$(told "$1" sources)" ]
}
