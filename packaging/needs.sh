#!/bin/sh
# Says in one line what is missing of the programs that are named, what to install for it, and where that comes from.
for tool; do
    command -v "$tool" > /dev/null 2>&1 && continue
    case $tool in
    rt) from="the Rattle kit (release 13f or later), which isn't published yet: ask whoever gave you this repository,"
        from="$from unpack it at /opt/rattle, and put /opt/rattle/bin on the PATH" ;;
    python3) from="Python 3.8 or later (Debian: apt-get install python3)" ;;
    dpkg-deb) from="dpkg, which Debian and Ubuntu have" ;;
    gcc) from="the GNU C compiler (Debian: apt-get install gcc libc6-dev)" ;;
    esac
    echo "make: $tool is missing: install $from" >&2
    exit 1
done
