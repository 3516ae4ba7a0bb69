# What ./run, ./plan and ./draw share. They set `top`, the repository, before they read this file.

# A source of the crates is newer than FILE. What rt keeps in their folders out/ is no source.
sources_newer() { # FILE
    [ -n "$(find "$top/crates.txt" "$top"/crates/*/* -name out -prune -o -newer "$1" -print -quit)" ]
}
