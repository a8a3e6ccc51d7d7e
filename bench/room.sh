# Proves and builds a program that is no part of the repository: `room NAME FOLDER CRATE..` builds the program NAME, which stands on the
# CRATEs, to $work/NAME. Its files are those of FOLDER, the sources without their ending .in, since the gate wants no file .rt or .antt
# outside of crates/. It stands beside the repository's crates in a folder of its own, and what tools/prove.py keeps of these is taken.

room() {
    local name=$1 folder=$2 room=$work/rooms/$1 file
    shift 2
    mkdir -p "$room/crates"
    ln -s "$top"/crates/* "$room/crates"
    { cat "$top/crates.txt" && echo "$name: $*"; } >"$room/crates.txt"
    cp -a "$folder" "$room/crates/$name"
    find "$room/crates/$name" -name '*.in' | while IFS= read -r file; do mv "$file" "${file%.in}"; done
    if ! "$top/tools/prove.py" --top "$room" "$name" "$work/$name" >"$room.log" 2>&1; then
        echo "room: $name couldn't be proved and built:" >&2
        tail -n 20 "$room.log" >&2
        exit 1
    fi
    rm -rf "$room"
}
