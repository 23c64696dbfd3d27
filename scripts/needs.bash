# What a script needs of the machine, installed where that is absent and may be installed.

# need COMMAND PACKAGE ..: without the command COMMAND the packages are absent; they are added to absent
absent=()
need() {
  command -v "$1" >/dev/null 2>&1 || absent+=("${@:2}")
}

# has_browser: whether there is headless Chromium, and a Python that drives it; sets python to that Python
has_browser() {
  command -v chromium >/dev/null 2>&1 && command -v chromedriver >/dev/null 2>&1 || return
  for python in python3 /usr/bin/python3; do
    if "$python" -c 'import selenium' 2>/dev/null; then return; fi
  done
  return 1
}

# as_root COMMAND ..: runs the command as root, without a question
as_root() {
  if [ "$(id -u)" -eq 0 ]; then
    "$@"
  elif command -v sudo >/dev/null 2>&1; then
    sudo -n "$@"
  else
    return 1
  fi
}

# install_absent: installs the packages in absent, and says so
install_absent() {
  [ ${#absent[@]} -gt 0 ] || return 0
  if command -v apt-get >/dev/null 2>&1 && as_root true 2>/dev/null; then
    say "installing ${absent[*]}"
    # The update fails where one source of several does not answer; what is absent may come from another one.
    as_root apt-get update -qq >/dev/null
    if as_root env DEBIAN_FRONTEND=noninteractive apt-get install -o DPkg::Lock::Timeout=300 -y -qq "${absent[@]}" >/dev/null; then
      absent=()
      return 0
    fi
  fi
  return 1
}

# install_servers: the same, and no service of the packages begins, now or when the machine starts again
install_servers() (
  policy=/usr/sbin/policy-rc.d
  [ ${#absent[@]} -gt 0 ] || exit 0
  as_root true 2>/dev/null || exit 1
  if [ ! -e "$policy" ]; then
    trap 'as_root rm -f "$policy"' EXIT
    printf '#!/bin/sh\nexit 101\n' | as_root sh -c 'cat >"$1" && chmod 755 "$1"' - "$policy" || exit 1
  fi
  servers=("${absent[@]}")
  install_absent || exit 1
  [ ! -d /run/systemd/system ] || as_root systemctl --quiet disable "${servers[@]}" 2>/dev/null || true
)

# stop_on_absent: installs what is absent; where it cannot, names the one command that does, and ends with 127
stop_on_absent() {
  install_absent && return 0
  say "absent: ${absent[*]}. Install with: sudo apt-get install ${absent[*]}"
  exit 127
}

# need_toolchain: ends with 127 where the command rt is absent, and has what rt itself needs installed
need_toolchain() {
  if ! command -v rt >/dev/null 2>&1; then
    say "the command 'rt' of the Rattle toolchain is not on the PATH. Ask whoever gave you the repository for the toolchain," \
      "add the folder of 'rt' to PATH, and run this again. docs/RUNNING.md says which version, and what else is needed"
    exit 127
  fi
  need python3 python3
}

# tell_toolchain: says so where the toolchain is not the one by which all was proved. For scripts that have set top
tell_toolchain() {
  grep -qsF "$(rt version)" "$top/docs/RUNNING.md" ||
    say "this toolchain is '$(rt version)', and docs/RUNNING.md names the one by which all was proved: a proof may fail with another"
}
