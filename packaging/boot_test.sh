#!/bin/sh
# boot_test.sh PACKAGE FOLDER: boots a Debian that has the package, and the names of Ubuntu's snap daemon taken.
#
# A board is made by the commands of the package's own manual page. After each of two more boots it has to be served
# with what was stored before, as after a `kill -9`. FOLDER keeps Debian's files for the next run. It wants root,
# debootstrap, systemd-nspawn and the network, says so in a line where something is missing, and takes two minutes.
set -eu
for it in debootstrap systemd-nspawn dpkg-deb; do
    command -v "$it" > /dev/null && [ "$(id -u)" = 0 ] ||
        { echo "skipped: it wants root, and apt-get install debootstrap systemd-container"; exit 0; }
done
package=$(realpath "$1") base=$2/base root=$2/root other=$2/other
mkdir -p "$2"
[ -e "$base/done" ] || { debootstrap --variant=minbase --include=systemd-sysv,dbus stable "$base"; touch "$base/done"; }
rm -rf "$root" "$other"
cp -a "$base" "$root"

# What has the daemon's names is a package, so that dpkg refuses a file of both; it runs, and is looked at in the end.
for it in usr/lib/snapd/snapd usr/bin/snap usr/bin/snapctl lib/systemd/system/snapd.service \
    lib/systemd/system/snapd.socket usr/lib/tmpfiles.d/snapd.conf usr/lib/sysusers.d/snapd.conf \
    usr/share/doc/snapd/copyright var/lib/snapd/state; do
    mkdir -p "$other/$(dirname "$it")"
    echo "# the daemon's" > "$other/$it"
done
printf '#!/bin/sh\nexec sleep infinity\n' > "$other/usr/lib/snapd/snapd"
chmod +x "$other/usr/lib/snapd/snapd"
echo 'd /run/snapd 0755 root root' > "$other/usr/lib/tmpfiles.d/snapd.conf"
printf '[Service]\nExecStart=/usr/lib/snapd/snapd\n[Install]\nWantedBy=multi-user.target\n' \
    > "$other/lib/systemd/system/snapd.service"
mkdir "$other/DEBIAN"
printf 'Package: snapd\nVersion: 2\nArchitecture: all\nMaintainer: nobody <root@localhost>\nDescription: names\n' \
    > "$other/DEBIAN/control"
dpkg-deb --root-owner-group --build "$other" "$root/snapd.deb" > /dev/null
cp "$package" "$root/board.deb"
chroot "$root" dpkg --install /snapd.deb /board.deb
chroot "$root" systemctl --quiet enable snapd.service

# Each boot runs this, and ends. The commands are those that the manual page indents, up to its next line that isn't.
cat > "$root/try.sh" << 'END'
#!/bin/sh
set -eux
boot=$(($(cat /boots) + 1))
echo "$boot" > /boots
[ -d /run/snapd ] && systemctl is-active snapd.service
at=127.0.0.1:7070
if [ "$boot" = 1 ]; then
    zcat /usr/share/man/man1/snapd.1.gz | sed 's/^\\&//;s/\\-/-/g' | sed -n '/^\.SH "A SERVICE/,$s/^  //p' |
        sed -n '/^systemctl enable/,/^systemctl start/p' > /steps
    sh -eux /steps
else
    snapd call "$at" get 0 --wait 30 | grep -qx "boot $((boot - 1))"
fi
snapd call "$at" put 0 --value "boot $boot" --wait 30
systemctl kill --signal=KILL snapd-board@sim
snapd call "$at" get 0 --wait 30 | grep -qx "boot $boot"
dpkg --verify snapd snapd-board
echo "$boot" > /good
END
echo 0 | tee "$root/boots" > "$root/good"
cat > "$root/etc/systemd/system/try.service" << 'END'
[Unit]
SuccessAction=poweroff
FailureAction=poweroff
[Service]
Type=oneshot
StandardOutput=journal+console
ExecStart=/bin/sh /try.sh
[Install]
WantedBy=multi-user.target
END
chroot "$root" systemctl --quiet enable try.service
for boot in 1 2 3; do
    timeout 120 systemd-nspawn --quiet --register=no --keep-unit --private-network --boot --directory "$root" \
        < /dev/null > "$2/boot$boot.log" 2>&1 || true
    [ "$(cat "$root/good")" = "$boot" ] || { echo "boot $boot failed: see $2/boot$boot.log"; exit 1; }
done
echo "served after each boot, with what was stored before it"
