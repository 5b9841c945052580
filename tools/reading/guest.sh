#!/bin/sh
# The first process of a Linux that runs as a program (user-mode-linux): its root is the host's, to be read alone.
export PATH=/usr/sbin:/usr/bin:/sbin:/bin
mount -t proc none /proc
mount -t tmpfs none /mnt
mount -t devtmpfs none /dev 2>/dev/null
"$PYTHON" "$HERE/guest.py" "$WORK" "$MODULES"
sync
echo o >/proc/sysrq-trigger
sleep 10
