#!/bin/sh
# The first process of a container: serves, and tells the gateway to stop where it is told to end itself.
config=${FTP_GATEWAY_CONFIG:-/etc/ftp_gateway/ftp_gateway.toml}
control=${FTP_GATEWAY_CONTROL:-/run/ftp_gateway/control}
ftp_gateway serve "$config" &
server=$!
trap 'ftp_gateway stop "$control" &' TERM INT
trap 'ftp_gateway reload "$control" &' HUP
while :; do
    wait "$server"
    status=$?
    # A signal ends the wait before the gateway has ended.
    kill -0 "$server" 2> /dev/null || exit "$status"
done
