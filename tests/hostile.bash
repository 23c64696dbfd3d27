# What the scripts share that try the program beside hostile files, with Python: helping.bash, over a folder in memory where a script
# has not read it before. A script is skipped where Python's own SQLite is absent or older than 3.37, which reads STRICT tables.
if [ -z "${tests-}" ]; then
  [ -w /dev/shm ] && in_memory=/dev/shm
  . "$(dirname "${BASH_SOURCE[0]}")/helping.bash"
fi
python3 -c 'import sqlite3, sys; sys.exit(sqlite3.sqlite_version_info < (3, 37))' 2>/dev/null ||
  skips "there is no Python with SQLite 3.37 or newer"
