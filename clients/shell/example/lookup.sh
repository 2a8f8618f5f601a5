#!/bin/sh
# A lookup by dig, the log, and a lost reply. To run it: NAMESERVER=.. sh clients/shell/example/lookup.sh
set -eu
. "$(dirname "$0")/../nameserver.sh"

folder=$(mktemp -d)
trap 'nameserver_stop; rm -rf "$folder"' EXIT

cat >"$folder/zone" <<'ZONE'
$ORIGIN example.com.
$TTL 60
@    SOA ns hostmaster ( 1 1h 10m 1d 30 )
www  A   10.0.0.1
ZONE
echo 'www.example.com. A drop times 1' >"$folder/faults"

expect() {
    if [ "$2" != "$3" ]; then
        echo "$1: wanted '$2', got '$3'" >&2
        exit 1
    fi
}

nameserver_start "$folder/zone" --faults "$folder/faults"

# The first reply is lost, so dig asks twice.
address=$(dig @"$NAMESERVER_ADDRESS" -p "$NAMESERVER_PORT" +noedns +timeout=1 +tries=2 +short www.example.com | grep -v '^;;')
expect "the address" 10.0.0.1 "$address"
nameserver_wait_for 2
expect "the requests" 2 "$(nameserver_count)"
expect "the lost replies" 1 "$(nameserver_count '"fault":1,')"
expect "the questions for addresses" 2 "$(nameserver_count '"type":"A"')"
expect "the code of the second reply" 1 "$(nameserver_count '"code":0,')"
nameserver_stop

# An update, and then the new address.
nameserver_start "$folder/zone"
nsupdate <<UPDATE
server $NAMESERVER_ADDRESS $NAMESERVER_PORT
zone example.com.
update add new.example.com. 60 A 10.0.0.2
send
UPDATE
address=$(dig @"$NAMESERVER_ADDRESS" -p "$NAMESERVER_PORT" +short new.example.com)
expect "the new address" 10.0.0.2 "$address"
nameserver_stop

echo "www.example.com has the address 10.0.0.1, and new.example.com was added"
