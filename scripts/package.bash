# Makes the package of Debian: what ./desk install lays down, below /usr, with the pages and what Debian asks of a package. For scripts
# that have set top and say, and have read program.bash, needs.bash and install.bash.
: "${top:?the top of the repository}"

# who has made the package, as Debian's tools are told it
readonly maintainer="${DEBFULLNAME:-who built this package} <${DEBEMAIL:-desk@example.org}>"

# compressed FILE: the file in its compressed form, which is the same each time
compressed() { gzip -9n "$1"; }

# copyright_file: what is known of rights, which is nothing
copyright_file() {
  cat <<'END'
desk, a booking desk for travel agencies.

This package was built from the sources of the desk by ./desk package. The sources state no holder of the copyright and grant no
licence. Ask whoever gave you the sources or this package before you pass it on.
END
}

# changelog VERSION: the one entry of Debian's changelog
changelog() {
  cat <<END
desk ($1) unstable; urgency=medium

  * What differs is in CHANGES.md, beside this file.

 -- $maintainer  $(LC_ALL=C date -u -R -d "@$SOURCE_DATE_EPOCH")
END
}

# after_change NAME: the script that systemd's list of units is read anew by, where systemd runs
after_change() {
  cat <<'END'
#!/bin/sh
set -e
if [ -z "${DPKG_ROOT-}" ] && [ -d /run/systemd/system ]; then systemctl --system daemon-reload >/dev/null || true; fi
END
}

# before_removal: the script that stops a desk before its program is removed; while the program is replaced the desk goes on
before_removal() {
  cat <<'END'
#!/bin/sh
set -e
if [ "$1" = remove ] && [ -z "${DPKG_ROOT-}" ] && [ -d /run/systemd/system ]; then deb-systemd-invoke stop desk.service >/dev/null || true; fi
END
}

# libraries: the packages of the libraries that the program is linked with
libraries() (
  mkdir -p "$room/debian" && cd "$room" && printf 'Source: desk\n\nPackage: desk\nArchitecture: any\n' >debian/control &&
    dpkg-shlibdeps -O "$tree/usr/bin/desk" 2>/dev/null | sed -n 's/^shlibs:Depends=//p' | grep .
)

# control_file VERSION
control_file() {
  local needed
  needed=$(libraries) || return
  cat <<END
Package: desk
Version: $1
Architecture: $(dpkg --print-architecture)
Maintainer: $maintainer
Installed-Size: $(du -sk --apparent-size "$tree/usr" | cut -f1)
Depends: $needed
Recommends: curl
Suggests: sqlite3
Section: database
Priority: optional
Description: $(about | sed 's/^A //')
 Commands by line or over HTTP book trips of several nights and suppliers,
 each whole or not at all. What a crash or a refusal interrupts is undone step
 by step. A desk is one file, which this package neither makes nor removes.
 .
 The unit desk.service serves /var/lib/desk/trips.db on port 8080, once it is
 enabled.
END
}

# fill_tree VERSION: makes what the package holds below tree
fill_tree() {
  local at mode command pages=$tree/usr/share/doc/desk prefix=/usr
  while read -r at mode command; do
    # where Debian's zsh looks for what a package brings
    at=$tree/usr/${at/site-functions/vendor-completions}
    mkdir -p "${at%/*}" && $command </dev/null >"$at" && chmod "$mode" "$at" || return
  done < <(printf '%s\n' "${installed[@]}")
  mkdir -p "$pages/docs" "$tree/DEBIAN" || return
  strip --strip-unneeded --remove-section=.comment --remove-section=.note "$tree/usr/bin/desk" && compressed "$tree/usr/share/man/man1/desk.1" &&
    cp -r "$top/README.md" "$top/CHANGES.md" "$pages" && cp -r "$top"/docs/*.{md,yaml} "$top/docs/pictures" "$pages/docs" &&
    copyright_file >"$pages/copyright" && changelog "$1" >"$pages/changelog" && compressed "$pages/changelog" &&
    chmod -R u=rwX,go=rX "$pages" &&
    for command in postinst postrm; do after_change >"$tree/DEBIAN/$command" || return; done &&
    before_removal >"$tree/DEBIAN/prerm" && chmod 755 "$tree/DEBIAN/"* && control_file "$1" >"$tree/DEBIAN/control"
}

# make_package FOLDER VERSION: makes the package of this version in the folder, and prints its file
make_package() (
  umask 022
  room=$(mktemp -d) && trap 'rm -rf "$room"' EXIT || exit 1
  tree=$room/tree file=$1/desk_$2_$(dpkg --print-architecture).deb
  # so that the same program gives the same package
  SOURCE_DATE_EPOCH=$(stat -c %Y "$program")
  export SOURCE_DATE_EPOCH
  fill_tree "$2" && dpkg-deb --root-owner-group -Zxz -z1 --build "$tree" "$room/made.deb" >"$room/said" 2>&1 && mv "$room/made.deb" "$file" &&
    printf '%s\n' "$file" && exit
  cat "$room/said" >&2
  say "the package could not be made"
  exit 1
)

# package_desk package
package_desk() {
  if [ $# -ne 1 ]; then
    echo "usage: ./desk package" >&2
    return 2
  fi
  is_made "make the package" || return
  need dpkg-deb dpkg
  need dpkg-shlibdeps dpkg-dev
  need strip binutils
  stop_on_absent
  make_package . "$("$program" --version | cut -d ' ' -f 2)"
}
