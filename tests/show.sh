#!/usr/bin/env bash
# The main job on two disk files of its own: a sale of three pages, and the pages read back. The files stay
# under run/, so that a second time goes on with the same register.
set -e
cd "$(dirname "$0")/.."
register=$PWD/crates/register/out/register
mkdir -p run
cd run

if [ ! -e first ] && [ ! -e second ]; then
    echo "Two new disks of 16 pages:"
    "$register" new first second 16
fi

day=$(date '+%Y-%m-%d %H:%M:%S')
echo "Lot 7, 40 roods, belongs to C since $day" >lot-7
echo "Lot 8, 12 roods, divided from lot 7 on $day" >lot-8
echo "C holds lot 7; D holds lot 8; sold on $day" >owners

echo
echo "A sale changes pages 7, 8 and 2 at once. Each block goes on the first disk and then on the second. The new"
echo "pages go into the log; then the header that holds decides; then each page goes to its place:"
"$register" change first second 7=lot-7 8=lot-8 2=owners --pad --trace 2>&1

echo
echo "The pages read back:"
for page in 7 8 2; do
    printf 'page %s: ' "$page"
    "$register" read first second "$page" 2>/dev/null | tr -d '\000'
done
