# What scripts of this folder share, which read it first: the program, a folder to work in that goes when the script ends, and a
# way to tell what goes otherwise. `failed` is 1 once something did.

hail=${HAIL:-$(CDPATH='' cd -P -- "$(dirname "${BASH_SOURCE[0]}")/.." && pwd -P)/hail}
scratch=$(mktemp -d) || exit 1
trap 'rm -rf "$scratch"' EXIT
cd "$scratch" || exit 1
failed=0

wrong() {
    echo "$(basename "$0" .sh): $1" >&2
    failed=1
}
