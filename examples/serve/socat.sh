#!/usr/bin/env bash
# Puts `vll serve` behind a unix socket by socat, makes a call through it, and prints what comes back.
#
#   examples/serve/socat.sh [PROGRAM]       the program is ./vll without it
set -euo pipefail

here=$(dirname -- "$(readlink -f -- "${BASH_SOURCE[0]}")")
room=$(mktemp -d)
trap 'rm -rf -- "$room"' EXIT
ln -s -- "$(readlink -f -- "${1-$here/../../vll}")" "$room/vll"
ln -s -- "$here/bank.json" "$room/bank.json"
cd -- "$room"

# The service has one connection, and ends with it. At the end of the input -t leaves time for what is to be answered.
socat -t 3600 UNIX-LISTEN:bank.sock EXEC:'./vll serve bank.json' &
echo '{"client":0,"proc":"transfer","args":[0,1,30]}' | socat -t 3600 - UNIX-CONNECT:bank.sock,retry=100,interval=0.1
wait $!
