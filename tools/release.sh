#!/usr/bin/env bash
# Makes the folder of a version, from which one can begin who has nothing else.
#
#     tools/release.sh FOLDER
#
# FOLDER/nrm-VERSION gets the four programs, which are built first if need be; nrm-tools with the package in python/, and the wheel of it;
# README.md, CHANGELOG.md, all pages of docs/ with the man pages, examples/, bench/, LICENSE, licences/ of the kit's crates that the
# programs have code of; VERSION, which says the version and the commit, and SHA256SUMS of all of them: `sha256sum -c SHA256SUMS` there
# sees that they are as they were made. Of README.md stays what is for who has no checkout. It is made of what is committed, with the kit's
# `rt` on the path, and Debian's python3-pip, python3-setuptools and python3-wheel: where something isn't, or the folder is there, nothing
# is made, and the status is 1; it is 2 where the words ask for nothing. NRM_PYTHON names the Python that makes the wheel,
# /usr/bin/python3 if it isn't said.
set -euo pipefail
top=$(dirname "$(dirname "$(readlink -f "${BASH_SOURCE[0]}")")")
python=${NRM_PYTHON:-/usr/bin/python3}

stop() {
  echo "release.sh: $1" >&2
  exit "${2-1}"
}

case ${1-} in
  -h | --help) sed '1d; /^[^#]/,$d; s/^# \?//' "${BASH_SOURCE[0]}" && exit ;;
  -*) stop "usage: tools/release.sh FOLDER" 2 ;;
esac
[ $# = 1 ] || stop "usage: tools/release.sh FOLDER" 2
version=$(<"$top/VERSION")
made=$1/nrm-$version
[ ! -e "$made" ] || stop "$made is there already"
commit=$(git -C "$top" rev-parse HEAD 2>/dev/null) || stop "$top is no git repository, or git isn't there: which commit it is can't be told"
[ -z "$(git -C "$top" status --porcelain)" ] || stop "$top has changes that aren't committed: \`git status\` tells them"
for page in nrm.1 nrm_kept.1 nrm_why.1 nrm_desks.1; do
  grep -q "\"nrm $version\"" "$top/docs/$page" || stop "docs/$page isn't of version $version"
done

"$top/nrm" print "$top/examples/two-legs/network.csv" >/dev/null || stop "there is no program to put into it"
for name in nrm_kept nrm_why nrm_desks; do
  status=0
  "$top/$name" >/dev/null || status=$?
  [ "$status" = 2 ] || stop "there is no program $name to put into it"  # it was called with no words
done
start=$(rt doc 2>/dev/null) || stop "the kit's \`rt\` isn't on the path, and its crates have licences to be handed on"
licences=("$(dirname "$start")"/rattle/{csv,indexmap,itoa,sqlite,thiserror,memchr,ryu,serde}/LICENSE*)  # the last three are for csv
for licence in "${licences[@]}"; do
  [ -f "$licence" ] || stop "there is no $licence, which is to be handed on"
done
"$python" -c 'import setuptools, wheel, pip' 2>/dev/null ||
  stop "the wheel can't be made: $python needs Debian's python3-pip, python3-setuptools and python3-wheel"

sources=$(mktemp -d)
trap 'rm -rf "$sources"' EXIT
git -C "$top" archive "$commit" nrm-tools python/pyproject.toml python/src bench docs examples tests/databases.py LICENSE CHANGELOG.md \
  CONTRIBUTING.md README.md | tar -x -C "$sources"
mkdir -p "$made/licences" || stop "$made can't be made"
cp -r "$sources/." "$made"
SOURCE_DATE_EPOCH=$(git -C "$top" show -s --format=%ct "$commit") "$python" -m pip wheel --quiet --no-deps --no-index \
  --no-build-isolation --wheel-dir "$made" "$sources/python" || stop "the wheel wasn't made"
sed '/^<!-- checkout -->$/,/^<!-- end -->$/d; /^<!-- release$/d; /^end -->$/d' "$sources/README.md" >"$made/README.md"
install -m 755 "$top"/crates/{nrm/out/nrm,nrm_kept/out/nrm_kept,nrm_why/out/nrm_why,nrm_desks/out/nrm_desks} "$made"
for licence in "${licences[@]}"; do
  install -m 644 "$licence" "$made/licences/$(basename "$(dirname "$licence")")-$(basename "$licence")"
done
echo "$version, of commit $commit" >"$made/VERSION"
(cd "$made" && find . -type f ! -name SHA256SUMS -printf '%P\n' | LC_ALL=C sort | xargs -d '\n' sha256sum >SHA256SUMS)
echo "$made"
