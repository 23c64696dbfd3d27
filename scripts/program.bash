# The program that ./build makes, and the sources that it is made from. For scripts that have set top.
: "${top:?the top of the repository}"

program=$top/crates/desk/out/desk

# program_crates: the crate desk, and all that it stands on, one a line
program_crates() {
  awk '
    function visit(name,    word, i) {
      if (!(name in uses) || seen[name]++) return
      print name
      for (i = split(uses[name], word, " "); i > 0; i--) visit(word[i])
    }
    { sub(/#.*/, "") }
    split($0, half, ":") == 2 { split(half[1], word, " "); uses[word[1]] = half[2] }
    END { visit("desk") }' "$top/crates.txt"
}

# program_folders: the folders with the sources of the program, one a line
program_folders() {
  local name part
  for name in $(program_crates); do
    for part in src specs proofs; do
      if [ -d "$top/crates/$name/$part" ]; then printf '%s\n' "$top/crates/$name/$part"; fi
    done
  done
}

# newer_source: a source that is newer than the program, if there is one
newer_source() {
  local folders
  mapfile -t folders < <(program_folders)
  find "$top/crates.txt" "${folders[@]}" -type f -newer "$program" -print -quit
}

# program_is_current: the program is there, and no source is newer
program_is_current() { [ -x "$program" ] && [ -z "$(newer_source)" ]; }

# sources_digest: a name for the sources of the program and the toolchain, the same as long as none of them changes
sources_digest() {
  local folders
  mapfile -t folders < <(program_folders)
  {
    rt version
    (cd "$top" && find crates.txt "${folders[@]#"$top"/}" -type f -print0 | LC_ALL=C sort -z | xargs -0 sha256sum)
  } | sha256sum | cut -c 1-16
}
