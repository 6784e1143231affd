#!/bin/sh
# A server for two connections, and two clients of other people's libraries that chat and play a battle to its end. Their
# packages in Debian are python3-websockets and node-ws. It listens at a free port of this machine, or at the address given;
# a second word names another configuration than data/small/config.json, as data/small/preview.json, with Team Preview.
top=$(cd "$(dirname "$0")/../.." && pwd) || exit 1
/usr/bin/python3 -c 'import websockets' 2>/dev/null || { echo "battle.sh: Debian's package python3-websockets isn't installed" >&2; exit 1; }
NODE_PATH=/usr/share/nodejs node -e 'require("ws")' 2>/dev/null || { echo "battle.sh: Debian's package node-ws isn't installed" >&2; exit 1; }
folder=$(mktemp -d) || exit 1
# However it ends, nothing that it started goes on.
running=
trap 'for process in $running; do kill "$process" 2>/dev/null; done; rm -rf "$folder"' EXIT
trap 'exit 1' HUP INT TERM
mkfifo "$folder/errors" || exit 1
address=${1:-127.0.0.1:0}
config=${2:-$top/data/small/config.json}
"$top/psd" serve "$address" 2 --dex "$top/data/small/dex.json" --config "$config" 2>"$folder/errors" &
server=$!
running=$server
exec 3<"$folder/errors"
# The server says where it listens. What comes before that line is of a build, or says why it ended.
address=
while [ -z "$address" ] && IFS= read -r line <&3; do
    case $line in
    "listening on "*) address=${line#listening on } ;;
    *) echo "$line" >&2 ;;
    esac
done
if [ -z "$address" ]; then
    running=
    wait "$server"
    exit
fi
cat <&3 >&2 &
errors=$!
running="$running $errors"
NODE_PATH=/usr/share/nodejs node "$top/data/clients/player.js" "$address" Bob 'Snorlax||||bodyslam,rest|||||||' &
bob=$!
running="$running $bob"
/usr/bin/python3 "$top/data/clients/player.py" "$address" Ann 'Tauros||||bodyslam,hyperbeam,blizzard,earthquake|||||||' Bob
ann=$?
wait "$bob" || ann=1
wait "$server" || ann=1
wait "$errors"
running=
exit "$ann"
