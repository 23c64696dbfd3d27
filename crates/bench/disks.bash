# What a commit's sync makes of the desk on slower disks: `desk serve` beside serve_many.c, whose every commit syncs too, over files in
# memory of which each sync is made to take so long (slow_sync.c); and then over the disk of TMPDIR, with its own syncs. No rights are
# needed.

# slow COMMAND ..: becomes this command, whose syncs take $delay microseconds longer
slow() { exec env LD_PRELOAD="$top/crates/bench/out/slow_sync.so" DELAY="$delay" "$@"; }
desk_on_disk() { slow "$desk" serve many.db --port "$1" --connections "$connections"; }
rows_on_disk() { slow "$top/crates/bench/out/serve_many" many.db "$1" "$connections"; }

# steps_a_second SERVER CLIENTS STEPS: how many steps a second this server makes for so many clients, of which each makes so many, and the
# microseconds of its processor for one
steps_a_second() {
  local connections=$2
  rm -f many.db*
  if [ "$1" = desk_on_disk ]; then
    echo "set flight-1 F/AL/A1/2030-06-01 100000" | "$desk" run many.db >answers && refused_none || return 1
  fi
  asked_by ask_many "$1" "$2" 0 1 1 "$3" | awk '{ printf "%.0f %.0f", 1e6 / $2, $3 }'
}

# table_of_disk DISK STEPS: a line for 1 client, of 24 steps, and for 100 clients, each of so many
table_of_disk() {
  local clients steps desk_steps rows_steps
  while read -r clients steps; do
    desk_steps=$(steps_a_second desk_on_disk "$clients" "$steps") && rows_steps=$(steps_a_second rows_on_disk "$clients" "$steps") ||
      return 1
    echo "$1 $clients $desk_steps $rows_steps"
  done <<<"1 24
100 $2"
}

# time_of_sync: the microseconds of a write of 4 KiB with its sync in this folder, the mean of 500
time_of_sync() {
  LC_ALL=C dd if=/dev/zero of=probe bs=4k count=500 oflag=dsync 2>&1 | awk '/copied/ { printf "%.0f\n", $(NF - 3) * 1e6 / 500 }'
  rm -f probe
}

# Steps a second where a sync takes so long.
measure_disks() (
  has_c disks serve_many && has_c disks ask_many || exit 0
  cc -O2 -shared -fPIC -o "$top/crates/bench/out/slow_sync.so" "$top/crates/bench/slow_sync.c" -ldl || exit 1
  works_in_memory
  echo "a-sync-takes clients desk-steps-a-second processor-µs libsqlite3-steps-a-second processor-µs"
  while read -r delay steps; do
    table_of_disk "$delay-µs-more" "$steps" || exit 1
  done <<<"0 24
100 24
1000 24
4000 8
10000 4"
  delay=0 folder=$(mktemp -d "${TMPDIR:-/tmp}/desk-disks.XXXXXX") || exit 2
  trap 'rm -rf "$work" "$folder"' EXIT
  cd "$folder" && table_of_disk "$(time_of_sync)-µs-on-the-disk" 24
)
