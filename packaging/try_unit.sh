#!/bin/sh
# try_unit.sh PROGRAM: starts rd_host.service under systemd with this built rd_host, in a container
# that has loopback alone and sees a copy of this machine's files, and prints a line for each thing
# that is wanted of it, and 'N passed, M failed'. Run by hand, as root, where systemd-container and
# libcoap3-bin are installed. Outside the container nothing changes, but that /run/systemd is there.
set -eu

here=$(cd "$(dirname "$0")" && pwd)
program=$(realpath "${1:?usage: try_unit.sh PROGRAM}")

if [ -z "${IN_OWN_MOUNTS:-}" ]; then
    IN_OWN_MOUNTS=1 exec unshare --mount "$0" "$program"
fi

room=$(mktemp -d)
trap 'umount -R "$room" && rmdir "$room"' EXIT
mount -t tmpfs tmpfs "$room"
mkdir -p "$room/upper" "$room/work" "$room/root" /run/systemd
mount -t tmpfs tmpfs /run/systemd
mount -t overlay overlay -o "lowerdir=/,upperdir=$room/upper,workdir=$room/work" "$room/root"

units="$room/root/etc/systemd/system"
mkdir -p "$units/multi-user.target.wants"
install "$program" "$room/root/usr/local/bin/rd_host"
install -m 644 "$here/rd_host.service" "$units/"
ln -sf ../rd_host.service "$units/multi-user.target.wants/"

cat > "$room/root/checks.sh" <<'CHECKS'
passed=0 failed=0
check() { # NAME COMMAND..: one line, by the status of the command
    name=$1; shift
    if "$@" > /dev/null 2>&1; then
        passed=$((passed + 1)); echo "passed: $name"
    else
        failed=$((failed + 1)); echo "FAILED: $name"
    fi
}
shows() { systemctl show rd_host -p "$1" --value; }
client() { $(command -v coap-client || command -v coap-client-notls) -B 5 "$@"; }
says() { client "$2" 2>&1 | grep -q "$1"; }
is() { [ "$1" = "$2" ]; }
status_has() { grep -q "$1" "/proc/$(shows MainPID)/status"; }
is_empty() { [ -z "$(client coap://127.0.0.1/rd-lookup/ep 2>&1)" ]; }

directory=coap://127.0.0.1
check "it runs" is "$(shows SubState)" running
check "it is not root" is "$(ps -o user= -p "$(shows MainPID)" | tr -d ' ')" rd_host
check "it has no capabilities" status_has '^CapBnd:[[:space:]]*0*$'
check "its system calls are filtered" status_has '^Seccomp:[[:space:]]*2$'
check "it has four threads" status_has '^Threads:[[:space:]]*4$'
check "it tells its resources" says 'rt="core.rd"' "$directory/.well-known/core"
check "a device registers" client -m post -t 40 -e '</temp>' "$directory/rd?ep=node1"
check "it is listed" says 'ep="node1"' "$directory/rd-lookup/ep"
systemctl kill -s KILL rd_host
sleep 4
check "it is started again after it was killed" \
    is "$(shows SubState) $(shows NRestarts)" "running 1"
check "nothing outlived it" is_empty
systemctl stop rd_host
check "it ends where it is stopped" is "$(shows ActiveState) $(shows Result)" "inactive success"
echo "$passed passed, $failed failed"
CHECKS

cat > "$units/checks.service" <<'CHECKS'
[Unit]
After=rd_host.service
[Service]
Type=oneshot
ExecStart=/bin/sh -c 'sleep 2; sh /checks.sh > /checks.out 2>&1; systemctl poweroff'
CHECKS
ln -sf ../checks.service "$units/multi-user.target.wants/"

timeout 120 systemd-nspawn --quiet --register=no --keep-unit --link-journal=no --private-network \
    --console=read-only --directory="$room/root" --boot > "$room/boot.log" 2>&1 \
    || { tail -20 "$room/boot.log"; exit 1; }
cat "$room/root/checks.out"
grep -q ', 0 failed$' "$room/root/checks.out"
