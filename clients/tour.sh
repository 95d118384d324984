#!/bin/sh
# A tour of one server: two sessions on a socket in a folder of its own edit one text, one types and
# one marks its words, and the screen becomes a picture. In a terminal it is shown live meanwhile,
# until the key q. The server records a book, which is played again behind it: it must be right, and
# the picture that is kept is that of the book, the same as that of the server.
#
# Usage: clients/tour.sh [PICTURE] [PROGRAM]     PICTURE is tour.png in the current folder without a
# word; the program is the launcher `nvimd` at the top of the repository. Wants Debian's
# python3-pynvim, python3-msgpack, python3-pil, fonts-dejavu-core.
set -u
case ${1:-} in
-h | --help)
    sed -n '2,/^set/{/^set/d;s/^# \{0,1\}//;p}' "$0"
    exit 0
    ;;
esac
clients=$(dirname "$(readlink -f "$0")")
picture=${1:-tour.png}
program=${2:-$clients/../nvimd}
folder=$(mktemp -d) || exit 1
socket=$folder/socket
book=$folder/book

fail() {
    echo "tour: $1" >&2
    exit 1
}

"$program" serve --listen "$socket" --book "$book" &
server=$!
trap 'kill "$server" 2>/dev/null; rm -rf "$folder"' EXIT
until [ -S "$socket" ]; do
    kill -0 "$server" 2>/dev/null || fail "the server didn't start"
    sleep 0.1
done

pause=0
last=3 # the number of the last UI's session
if [ -t 0 ] && [ -t 1 ]; then pause=0.03 last=4; fi
"$clients/marker.py" "$socket" >"$folder/marker" &
marker=$!
"$clients/typist.py" "$socket" "$pause" &
typist=$!
if [ "$last" = 4 ]; then "$clients/view.py" "$socket"; fi
wait "$typist" || fail "the typist failed"
wait "$marker" || fail "the marker failed"
cat "$folder/marker"
"$clients/picture.py" --size 60x14 "$folder/live" "$socket" || exit 1
(cd "$clients" && /usr/bin/python3 -m nvimd.call "$socket" nvim_command '"qall!"') >"$folder/quit"
wait "$server" || fail "the server ended with another status than 0"

"$program" replay "$book" --check >"$folder/check" || fail "the book isn't right"
echo "tour: the book: $(cat "$folder/check")"
"$clients/picture.py" --book "$book" --session "$last" "$picture" || exit 1
cmp "$picture" "$folder/live" || fail "the picture of the book is another one"
trap - EXIT
rm -rf "$folder"
echo "tour: the screen is in $picture"
