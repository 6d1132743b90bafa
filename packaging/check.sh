#!/bin/bash
# check.sh PACKAGE FOLDER: installs the package into a fresh root in FOLDER, which it makes, and looks whether it holds what it should: each
# command with its page, the units, the documents with no dead link, a dependency on the C library that the program needs, and nothing
# that a user can't read. It tells what goes otherwise, and ends with 0 exactly where nothing does.
set -u

[ $# -eq 2 ] && [ -f "$1" ] || { echo 'usage: packaging/check.sh PACKAGE FOLDER' >&2; exit 2; }
package=$1
mkdir -p "$2" && fresh=$(CDPATH='' cd -P -- "$2" && pwd -P) || exit 1
failed=0

wrong() {
    echo "package: $*" >&2
    failed=1
}

# Installs with dpkg, of which the fresh root knows no other package; only root may.
mkdir -p "$fresh/var/lib/dpkg/info" "$fresh/var/lib/dpkg/updates" || exit 1
: >"$fresh/var/lib/dpkg/status"
if [ "$(id -u)" -eq 0 ]; then
    dpkg --root="$fresh" --force-depends --force-bad-path --install "$package" >"$fresh/log" 2>&1 || wrong "it does not install: $(tail -n 1 "$fresh/log")"
    dpkg --root="$fresh" --verify hail | grep . && wrong 'it installs otherwise'
else
    dpkg-deb -x "$package" "$fresh" || wrong 'it does not open'
fi

for command in hail hail-init hail-watch hail-verify hail-gc hail-restore hail-salvage hail-remote hail-rebuild hail-keep hail-plan \
    hail-status hail-help hail-homes hail-move hail-stack hail-sftp git-annex-remote-hail; do
    [ -x "$fresh/usr/bin/$command" ] || wrong "there is no command $command"
    [ -f "$fresh/usr/share/man/man1/$command.1.gz" ] || wrong "there is no page of $command"
    [ "$command" = hail ] || zcat "$fresh/usr/share/man/man1/$command.1.gz" | grep -q '^\.SH .*TRUST' || wrong "the page of $command does not tell what it trusts"
    [ "$command" = git-annex-remote-hail ] || grep -q "^complete .* $command\b" "$fresh/usr/share/bash-completion/completions/hail" || wrong "$command has no completion"
done
for file in doc/hail/copyright doc/hail/changelog.gz doc/hail/README.md doc/hail/docs/guide.md doc/hail/docs/instances.tsv \
    bash-completion/completions/hail; do
    [ -s "$fresh/usr/share/$file" ] || wrong "there is no $file"
done
"$fresh/usr/bin/hail-plan" --only shapes >"$fresh/log" 2>&1 || wrong "hail-plan does not run: $(tail -n 1 "$fresh/log")"
"$fresh/usr/bin/hail-help" 13 | grep -q provider || wrong 'hail-help tells nothing'
for part in stack-blocks tell-failed tell-progress; do
    [ -x "$fresh/usr/lib/hail/$part" ] || wrong "there is no $part"
done
for folder in system user; do
    for unit in hail-failed@.service hail-watch@.service hail-watch@.timer hail-verify@.service hail-verify@.timer \
        hail-scrub@.service hail-scrub@.timer hail-pack@.service hail-pack@.timer; do
        [ -s "$fresh/usr/lib/systemd/$folder/$unit" ] || wrong "there is no $folder unit $unit"
    done
done
for document in "$fresh"/usr/share/doc/hail/*.md "$fresh"/usr/share/doc/hail/docs/*.md; do
    grep -oE '\]\([^)#: ]+' "$document" | cut -c 3- | while read -r link; do
        [ -e "$(dirname "$document")/$link" ] || echo "$document leads to $link"
    done
done | grep . >&2 && wrong 'documents have dead links'
find "$fresh/usr" ! -type l ! -perm -444 | grep . >&2 && wrong 'not everyone can read it'
find "$fresh/usr" ! -type l -perm /022 | grep . >&2 && wrong 'others can write it'

# The programs that are Python find their package.
if command -v /usr/bin/python3 >/dev/null 2>&1; then
    "$fresh/usr/bin/hail-sftp" >"$fresh/log" 2>&1
    [ $? -eq 2 ] && grep -q '^usage: hail-sftp' "$fresh/log" || wrong "hail-sftp does not start: $(tail -n 1 "$fresh/log")"
    [ "$("$fresh/usr/bin/git-annex-remote-hail" </dev/null)" = 'VERSION 1' ] || wrong 'git-annex-remote-hail does not start'
    find "$fresh/usr" -name '*.pyc' | grep . >&2 && wrong 'it holds what Python makes of itself'
fi

# The newest version of the C library that the program names is the one that the package depends on.
needed=$(grep -aoE 'GLIBC_2\.[0-9]+' "$fresh/usr/lib/hail/program" | sort -u -V | tail -n 1)
dpkg-deb -f "$package" Depends | grep -qF "libc6 (>= ${needed#GLIBC_})" || wrong "it needs ${needed#GLIBC_} of libc6, and depends on $(dpkg-deb -f "$package" Depends)"
if command -v systemd-analyze >/dev/null 2>&1; then
    for unit in "$fresh"/usr/lib/systemd/system/hail-*; do
        copy=$fresh/$(basename "$unit" | sed 's/@/@srv-home/')
        sed "s|/usr/bin/|$fresh/usr/bin/|; s|/usr/lib/hail/|$fresh/usr/lib/hail/|" "$unit" >"$copy"
        systemd-analyze verify --man=no "$copy" >"$fresh/log" 2>&1 || wrong "$(basename "$unit"): $(head -n 2 "$fresh/log")"
    done
fi
exit $failed
