#!/bin/sh
# Tries hcaframe: every command, both ways, and what it must refuse. One line a case; the first wrong result ends it with status 1.
# sh scripts/hcaframe-test.sh [PROGRAM [PART..]]: the program is target/hcaframe, the parts are all of scripts/hcaframe/*.sh, if none is given.
set -u
here=$(cd "$(dirname "$0")/.." && pwd)
program=${1:-$here/target/hcaframe}
case $program in /*) ;; *) program=$(pwd)/$program ;; esac
[ $# -eq 0 ] || shift
[ $# -ne 0 ] || set -- words encode read write check header inspect wav list convert bank resolutions modes inputs outputs streams limits
work=$(mktemp -d)
trap 'rm -rf "$work"' EXIT
. "$here/scripts/hcaframe/common.sh"
for part in "$@"; do
    folder=$work/$part
    mkdir "$folder" && cd "$folder" || exit 1
    prepare
    . "$here/scripts/hcaframe/$part.sh"
done
echo "$cases cases, all as expected"
