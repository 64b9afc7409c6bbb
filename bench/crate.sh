# shellcheck shell=bash disable=SC2154
# Programs on the crates of this repository, for scripts that set `top` to its folder and read this file.

# Copies the sources into a folder. The libraries that ./build has made come by links, so that none is proved again.
copy_sources() {
  local folder=$1 library name
  tar -C "$top" --exclude=out -cf - crates crates.txt HANDLES | tar -C "$folder" -xf -
  for library in "$top"/crates/*/out/rlib; do
    [ -d "$library" ] || continue
    name=${library%/out/rlib}
    name=${name##*/}
    mkdir -p "$folder/crates/$name/out"
    cp -al "$library" "$folder/crates/$name/out" 2>/dev/null || cp -r "$library" "$folder/crates/$name/out"
  done
  git init -q "$folder"
}

# Adds a crate to the copy: its name, with the handles behind it that crates.txt wants, and the crates that it stands on. The text of its
# program comes in.
add_program() {
  local folder=$1 crate=$1/crates/${2%% *}
  echo "$2: $3" >>"$folder/crates.txt"
  mkdir -p "$crate/src" "$crate/specs" "$crate/proofs"
  touch "$crate/specs/Lib.antt" "$crate/proofs/Lib.antt"
  cat >"$crate/src/main.rt"
}

# Proves and builds the program, which is then out/NAME of its crate, or shows what refuses it.
build_program() {
  local folder=$1 name=$2
  (cd "$folder/crates/$name" && rt run) >"$folder/log" 2>&1
  [ -x "$folder/crates/$name/out/$name" ] || { cat "$folder/log"; exit 1; }
}
