#!/bin/sh
# Makes a Debian package of the built program, its companions, their manual pages and systemd units, completion and documents, with the
# tools of Debian alone. deb.sh FOLDER puts the package there and tells its path. The program is built first where it is not there yet.
set -eu
umask 022

root=$(CDPATH='' cd -P -- "$(dirname "$0")/.." && pwd -P)
[ $# -eq 1 ] && [ -d "$1" ] || { echo 'usage: packaging/deb.sh FOLDER' >&2; exit 2; }
target=$(CDPATH='' cd -P -- "$1" && pwd -P)
version=$(cat "$root/packaging/VERSION")
architecture=$(dpkg --print-architecture)

"$root/hail" - row 4 1 1 7 7 7 9 >/dev/null

tree=$(mktemp -d)
trap 'rm -rf "$tree"' EXIT
chmod 755 "$tree"
docs=$tree/usr/share/doc/hail

put_program() {
    install -D -m 755 "$root/hail" "$tree/usr/bin/hail"
    install -D -m 755 "$root/out/hail" "$tree/usr/lib/hail/program"
    for page in "$root"/packaging/hail-*.1 "$root"/packaging/git-annex-remote-hail.1; do
        tool=$(basename "$page" .1)
        install -D -m 755 "$root/tools/$tool" "$tree/usr/lib/hail/$tool"
        ln -s "../lib/hail/$tool" "$tree/usr/bin/$tool"
    done
    for part in hail-lib.sh journal.awk; do
        install -D -m 644 "$root/tools/$part" "$tree/usr/lib/hail/$part"
    done
    for module in "$root"/tools/lib/hail/*.py "$root"/tools/folders/*.py; do
        install -D -m 644 "$module" "$tree/usr/lib/hail/${module#"$root/tools/"}"
    done
    for part in stack-blocks tell-failed tell-progress; do
        install -D -m 755 "$root/tools/$part" "$tree/usr/lib/hail/$part"
    done
    awk '/^## / { within = $0 == "## Each status" } within' "$root/docs/guide.md" >"$tree/usr/lib/hail/each-status.md"
}

# The units run for the system and for a user alike.
put_pages_and_units() {
    install -d "$tree/usr/share/man/man1"
    for page in "$root"/packaging/*.1; do
        gzip -9n <"$page" >"$tree/usr/share/man/man1/${page##*/}.gz"
    done
    for unit in "$root"/packaging/systemd/*; do
        install -D -m 644 "$unit" "$tree/usr/lib/systemd/system/${unit##*/}"
        install -D -m 644 "$unit" "$tree/usr/lib/systemd/user/${unit##*/}"
    done
    install -D -m 644 "$root/packaging/completion/hail" "$tree/usr/share/bash-completion/completions/hail"
}

# In a document of the package a link to a file that the package has not becomes its text.
drop_dead_links() {
    grep -oE '\]\([^)#: ]+[^)]*\)' "$1" | sort -u | sed 's/^](//; s/)$//' | while read -r link; do
        [ -e "$(dirname "$1")/${link%%#*}" ] || sed -i "s|\[\([^]]*\)\]($link)|\1|g" "$1"
    done
}

put_documents() {
    (cd "$root" && for document in *.md docs/*.md docs/*.svg docs/*.tsv docs/*.txt; do
        [ ! -f "$document" ] || [ "$document" = CHANGELOG.md ] || install -D -m 644 "$document" "$docs/$document"
    done)
    for document in "$docs"/*.md "$docs"/docs/*.md; do drop_dead_links "$document"; done
    gzip -9n <"$root/CHANGELOG.md" >"$docs/changelog.gz"
    install -m 644 "$root/packaging/copyright" "$docs/copyright"
}

put_control() {
    mkdir "$tree/DEBIAN"
    cat >"$tree/DEBIAN/control" <<CONTROL
Package: hail
Version: $version
Architecture: $architecture
Maintainer: The hail authors <hail@localhost>
Installed-Size: $(du -sk "$tree/usr" | cut -f 1)
Depends: libc6 (>= 2.34), bash (>= 5.0), coreutils (>= 8.31), findutils (>= 4.6), util-linux (>= 2.30), mawk | awk, python3 (>= 3.10)
Recommends: python3-paramiko
Suggests: restic, rclone, sshfs, git-annex
Section: utils
Priority: optional
Description: proved client for files on several storage providers
 It codes each file across providers of which some may lie, lose or alter
 what they hold, audits them, and repairs them. Its contracts are proved.
CONTROL
}

put_program
put_pages_and_units
put_documents
put_control
package=$target/hail_${version}_$architecture.deb
dpkg-deb --root-owner-group --build "$tree" "$package" >/dev/null
echo "$package"
