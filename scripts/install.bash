# Installs the program below a folder, with the script for backups, its man page, completions and unit file, and removes just
# these. For scripts that have set top and say, and have read program.bash and needs.bash.
: "${top:?the top of the repository}"

# what is installed: where it stands below the folder, its mode, and what writes it to standard output
readonly installed=(
  "bin/desk 755 desk_program"
  "bin/desk-backup 755 backup_tool"
  "share/man/man1/desk.1 644 manual man"
  "share/bash-completion/completions/desk 644 manual bash"
  "share/zsh/site-functions/_desk 644 manual zsh"
  "share/fish/vendor_completions.d/desk.fish 644 manual fish"
  "lib/systemd/system/desk.service 644 unit_file"
)
# the folders that were made for them, one a line
readonly made_at=share/desk/folders

readonly installed_files=("${installed[@]%% *}")

desk_program() { cat "$program"; }
backup_tool() { cat "$top/tools/backup"; }
manual() { python3 -B "$top/scripts/manual.py" "$program" "$1"; }
# about: what the program is, in the first line of its help
about() { "$program" --help 2>&1 | sed -n 1p; }

# read_prefix WORD ..: sets prefix to the one folder that is named, as an absolute path
read_prefix() {
  if [ $# -ne 2 ] || [ -z "$2" ]; then
    echo "usage: ./desk $1 PREFIX" >&2
    return 2
  fi
  case $2 in
    *[\"\\%$'\n']*)
      say "the folder's name may have no quotation mark, backslash, percent sign or line feed"
      return 2
      ;;
    /*) prefix=$2 ;;
    *) prefix=$PWD/$2 ;;
  esac
  [ "$prefix" = / ] || prefix=${prefix%/}
}

# make_folder FOLDER: makes a folder below prefix and those above it, and notes each that was absent
make_folder() {
  [ "$1" = . ] || [ -d "$prefix/$1" ] && return
  make_folder "$(dirname "$1")" && mkdir "$prefix/$1" && printf '%s\n' "$1" >>"$prefix/$made_at"
}

# place FILE MODE COMMAND: has the command write a file below prefix, in place of what stands there
place() {
  make_folder "$(dirname "$1")" && $3 </dev/null >"$prefix/$1.new" && chmod "$2" "$prefix/$1.new" && mv -f "$prefix/$1.new" "$prefix/$1"
}

# unit_file: the unit of systemd that serves the database trips.db in its state folder. The stop is asked for at the house's
# door, and waits for the end of the program: systemd signals what still runs when ExecStop is over.
unit_file() {
  cat <<EOF
[Unit]
Description=$(about)
Documentation=man:desk(1)
StartLimitIntervalSec=0

[Service]
ExecStart="$prefix/bin/desk" serve %S/desk/trips.db --port 8080 --house %t/desk/house.sock
ExecStop=-sh -c "curl --silent --output /dev/null --unix-socket %t/desk/house.sock --data '' http://desk/stop && exec tail --pid=\${MAINPID} -f /dev/null"
Restart=always
RestartSec=1
RestartPreventExitStatus=2
DynamicUser=yes
StateDirectory=desk
StateDirectoryMode=0700
RuntimeDirectory=desk
RuntimeDirectoryMode=0700
UMask=0077
NoNewPrivileges=yes
ProtectSystem=strict
ProtectHome=read-only
ProtectProc=invisible
ProtectClock=yes
ProtectHostname=yes
ProtectKernelTunables=yes
ProtectKernelModules=yes
ProtectKernelLogs=yes
ProtectControlGroups=yes
PrivateTmp=yes
PrivateDevices=yes
CapabilityBoundingSet=
RestrictAddressFamilies=AF_INET AF_UNIX
IPAddressDeny=any
IPAddressAllow=localhost
RestrictNamespaces=yes
RestrictRealtime=yes
RestrictSUIDSGID=yes
LockPersonality=yes
MemoryDenyWriteExecute=yes
SystemCallArchitectures=native
SystemCallFilter=@system-service
SystemCallFilter=~@privileged

[Install]
WantedBy=multi-user.target
EOF
}

# begin_list: makes the folder of the list of folders, and notes those that were absent
begin_list() {
  local folder absent_before=""
  for folder in . share share/desk; do
    [ -d "$prefix/$folder" ] || absent_before+=$folder$'\n'
  done
  mkdir -p "$prefix/${made_at%/*}" && printf '%s' "$absent_before" >>"$prefix/$made_at"
}

# place_all: writes each file below prefix
place_all() {
  local at mode command
  begin_list || return
  while read -r at mode command; do
    place "$at" "$mode" "$command" || return
  done < <(printf '%s\n' "${installed[@]}")
}

# is_made WHAT: the program is there, and no source is newer; else says what to do then
is_made() {
  need python3 python3
  stop_on_absent
  program_is_current && return
  say "the program is absent, or older than a source. Make it with ./build, and then $1"
  return 1
}

# install_desk install PREFIX
install_desk() {
  read_prefix "$@" || return
  is_made "install it" || return
  if ! place_all; then
    say "not all could be written below $prefix. What was written is removed with: ./desk uninstall $prefix"
    return 1
  fi
  printf '%s\n' "${installed_files[@]/#/$prefix/}"
  say "remove them with: ./desk uninstall $prefix"
}

# uninstall_desk uninstall PREFIX: removes what install_desk has written, and the folders that it made where they are empty
uninstall_desk() {
  local folder folders=()
  read_prefix "$@" || return
  if [ ! -f "$prefix/$made_at" ]; then
    say "nothing was installed below $prefix"
    return 1
  fi
  mapfile -t folders < <(tac "$prefix/$made_at")
  rm -f "${installed_files[@]/#/$prefix/}" "$prefix/$made_at" || return 1
  for folder in "${folders[@]}"; do
    case /$folder/ in
      /./) rmdir "$prefix" 2>/dev/null ;;
      */../*) ;;
      *) rmdir "$prefix/$folder" 2>/dev/null ;;
    esac
  done
  return 0
}
