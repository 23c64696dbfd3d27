#!/usr/bin/env bash
# The package of ./desk package: it is installed on a system of its own, serves and books by the command of its unit, takes the place of
# one of version 0.2.0, is removed and purged; what the desk has written stays byte for byte. No package of 0.2.0 was ever made: the older
# one has the same program under that number, and its file is given the tables of 0.2.0. lintian finds no error. The system is one of
# Debian's that mmdebstrap or debootstrap makes, and where neither can, a folder with records of its own for dpkg; the last line says which.
. "$(dirname "${BASH_SOURCE[0]}")/helping.bash"
. "$tests/serving.bash"
top=$(dirname "$tests")
say() { printf 'package.sh: %s\n' "$*" >&2; }
skips_trial
stands_on dpkg-deb dpkg-shlibdeps strip curl sqlite3
for file in program needs install package; do . "$top/scripts/$file.bash"; done
program=$DESK

# the package, and one of the version before
version=$("$DESK" --version | cut -d ' ' -f 2)
before=0.2.0
system=$(dpkg --print-architecture)
new=$(make_package "$work" "$version") || exit 1
same "the name of the package" "$work/desk_${version}_$system.deb" "$new"
mkdir older again
old=$(make_package older "$before") || exit 1
same "made again it is the same" "$(sum "$new")" "$(sum "$(make_package again "$version")")"
same "what it says of itself" "desk $version $system" "$(dpkg-deb -W --showformat '${Package} ${Version} ${Architecture}' "$new")"
same "libraries that it needs" yes "$([[ $(dpkg-deb -f "$new" Depends) == libc6\ * ]] && echo yes)"
same "what it holds but for pages, which ./desk install lays down too" "$(printf 'usr/%s\n' "${installed_files[@]}" |
  sed 's/site-functions/vendor-completions/; s/desk\.1$/&.gz/' | LC_ALL=C sort)" \
  "$(dpkg-deb --fsys-tarfile "$new" | tar t | sed -n 's,^\./,,; /share\/doc/d; /[^/]$/p' | LC_ALL=C sort)"
looked="no lintian is here to look at it"
if command -v lintian >/dev/null; then
  looked="$(lintian --version) has looked at it"
  lintian --allow-root --fail-on error --tag-display-limit 0 "$new" >found 2>&1 || same "lintian: the status" 0 "$?: $(cat found)"
fi
same "another word: the status" 2 "$(
  package_desk package x 2>/dev/null
  echo $?
)"
same "without a program" "1 package.sh: the program is absent, or older than a source. Make it with ./build, and then make the package" "$(
  program=$work/absent
  told=$(package_desk package 2>&1)
  echo "$? $told"
)"

# makes_system: makes a system of Debian in the folder root by the tool of this name
makes_system() {
  local codename
  codename=$(. /etc/os-release && echo "$VERSION_CODENAME")
  rm -rf --one-file-system root
  case $1 in
    mmdebstrap) timeout 600 mmdebstrap --quiet --variant=essential "$codename" root ;;
    debootstrap) timeout 600 debootstrap --variant=minbase "$codename" root ;;
  esac >debian 2>&1
}

# administer WORD ..: dpkg in this system
how="a folder of its own"
for tool in mmdebstrap debootstrap; do
  if [ "$(id -u)" -eq 0 ] && command -v "$tool" >/dev/null && makes_system "$tool"; then
    how="a system that $tool made"
    break
  fi
done
if [ "$how" = "a folder of its own" ]; then
  rm -rf root
  mkdir -p root/var/lib/dpkg/info root/var/lib/dpkg/updates && touch root/var/lib/dpkg/status || exit 2
  as_owner=()
  if [ "$(id -u)" -ne 0 ]; then as_owner=(fakeroot); fi
  administer() {
    "${as_owner[@]}" dpkg --root="$work/root" --force-not-root --force-depends --force-script-chrootless --log=/dev/null "$@"
  }
  at_root=$work/root enter=()
else
  administer() { chroot root dpkg "$@"; }
  at_root="" enter=(chroot root)
fi

# changes WHAT WORD .. : dpkg does this, and what the desk has written stays
changes() {
  local what=$1 before
  shift
  before=$(written)
  administer "$@" >did 2>&1 || same "$what" "" "$(cat did)"
  same "$what: what the desk has written" "$before" "$(written)"
}

# written: the files of the desk, and sums of what they hold
written() { find root/var/lib/desk -type f -exec sha256sum {} + 2>/dev/null | sort; }

# version_there: the version that is installed, if one is
version_there() { administer -l desk 2>/dev/null | awk '$1 == "ii" { print $3 }'; }

# begins: the desk serves by the command of the unit that is installed, in folders as systemd makes them, on a free port
begins() {
  local command
  port=$(free_port)
  : >told
  mkdir -p root/var/lib/desk root/run/desk
  command=$(sed -n 's/^ExecStart=//p' root/usr/lib/systemd/system/desk.service | sed "s,8080,$port,; s,%S,$at_root/var/lib,; s,%t,$at_root/run,; s,/usr/bin,$at_root&,")
  "${enter[@]}" sh -c "exec $command" >told 2>desk_err &
  desk=$!
  while kill -0 "$desk" 2>/dev/null && [ ! -s told ]; do sleep 0.01; done
  same "it serves" "ready $port" "$(cat told)"
}

# ends: the house stops it, as the unit's command does
ends() {
  curl -s -o /dev/null --unix-socket root/run/desk/house.sock --data '' http://desk/stop
  ends_well "it serves"
}

# asks_for WHAT BODY KEY PATH TEXT: ann's request gets this page
asks_for() {
  page "$1" 200 "$2" -H 'Desk-Agent: ann' -H "Desk-Key: $3" --data-binary "$5" "http://127.0.0.1:$port$4"
}

cp "$new" root/newer.deb && cp "$old" root/older.deb
changes "it is installed, in the version before" -i "$at_root/older.deb"
same "the version before" "$before" "$(version_there)"
begins
asks_for "allotments" '{"batch":"june","rows":1}' k1 /batches/june $'kind,supplier,product,night,places\nflight,AL,A1,2030-06-01,9\n'
asks_for "a journey" '{"journey":1}' k2 /journeys "$plan"
asks_for "its step" '{"item":"T1.1","journey":1,"pos":1,"state":"ended"}' k3 /journeys/1/step ''
changes "the newer one takes its place, while it serves" -i "$at_root/newer.deb"
same "the newer version" "$version" "$(version_there)"
asks_for "the desk that serves goes on" '{"journey":2}' k4 /journeys "$plan"
ends
# the tables of 0.2.0 have no index on the agents of journeys, and are otherwise those of today
sqlite3 root/var/lib/desk/trips.db 'DROP INDEX journey_agent'
begins
asks_for "the newer one knows what was answered" '{"journey":2}' k4 /journeys "$plan"
ends
same "the newer one adds the index" "indexed journeys 2" "$("${enter[@]}" "$at_root/usr/bin/desk" index "$at_root/var/lib/desk/trips.db")"
changes "it is removed" -r desk
same "what is left of it" "" "$(find root/usr/bin/desk* root/usr/share/doc/desk root/usr/lib/systemd/system/desk.service 2>/dev/null)"
changes "it is purged" -P desk
same "no version is left" "" "$(version_there)"
changes "it is installed again" -i "$at_root/newer.deb"
same "what it has written is read" "           1 ann              ended 1
           2 ann              undone 0
journeys 2" "$("${enter[@]}" "$at_root/usr/bin/desk" journeys "$at_root/var/lib/desk/trips.db")"
echo "package.sh: installed on $how; $looked"
finish
