#!/bin/sh
# run.sh [WORK] [--accept]: what other readers make of cards that the built library made, whole, cut and damaged. WORK is target/firmware unless it is given. See README.md.
# KERNEL_DEB and OVMF_DEB take packages other than the ones that apt would give; ACCEL=kvm is faster where there is KVM; SKIP="kernel ovmf uboot userland" leaves parts out; QUICK=1 takes 24 of the 110 states.
set -eu
PATH=$PATH:/usr/sbin:/sbin
export PATH PYTHONDONTWRITEBYTECODE=1
here=$(cd "$(dirname "$0")" && pwd)
work=${1:-$here/../../target/firmware}
accept=${2:-}
mkdir -p "$work"
work=$(cd "$work" && pwd)
begun=$(date +%s)

without() { # names the programs that are missing
    for p in "$@"; do command -v "$p" > /dev/null || printf '%s ' "$p"; done
}
part() { # part NAME PROGRAM...: whether to run it
    name=$1
    shift
    case " ${SKIP:-} " in *" $name "*) echo "$name: skipped, as asked"; return 1 ;; esac
    lacking=$(without "$@")
    [ -z "$lacking" ] || { echo "$name: skipped, not installed: $lacking"; return 1; }
}

rm -rf "$work"/*.json "$work"/*.tsv "$work"/*.txt "$work"/cards "$work"/ovmf "$work"/ovmf-locked "$work"/uboot
python3 "$here/states.py" "$work"
: > "$work/versions.txt"

if part kernel qemu-system-x86_64 busybox cpio dpkg-deb; then
    if [ ! -d "$work/kernel" ]; then
        deb=${KERNEL_DEB:-}
        if [ -z "$deb" ]; then
            package=$(apt-cache depends linux-image-cloud-amd64 | sed -n 's/.*Depends: \(linux-image-[^ ]*\)$/\1/p' | head -n 1)
            (cd "$work" && apt-get download -q "$package" 2> /dev/null)
            deb=$(ls "$work"/linux-image-*.deb)
        fi
        dpkg-deb -x "$deb" "$work/kernel"
        dpkg-deb -f "$deb" Package Version | tr '\n' ' ' | sed 's/Package: //; s/Version: //' > "$work/kernel/package"
    fi
    python3 "$here/kernel.py" "$work"
    cat "$work/kernel/package" >> "$work/versions.txt"; echo >> "$work/versions.txt"
fi
if part ovmf qemu-system-x86_64 mformat mcopy; then
    if [ -n "${OVMF_DEB:-}" ]; then
        rm -rf "$work/ovmf-package"
        for deb in $OVMF_DEB; do # ovmf, and from Debian 13 on efi-shell-x64 too
            dpkg-deb -x "$deb" "$work/ovmf-package"
            dpkg-deb -f "$deb" Package Version | tr '\n' ' ' | sed 's/Package: //; s/Version: //' >> "$work/versions.txt"; echo >> "$work/versions.txt"
        done
        OVMF_DIR=$work/ovmf-package/usr/share/OVMF
        export OVMF_DIR
    fi
    if ls "${OVMF_DIR:-/usr/share/OVMF}"/OVMF_CODE*.fd > /dev/null 2>&1; then python3 "$here/ovmf.py" "$work"; else echo "ovmf: skipped, not installed: ovmf"; fi
fi
if part uboot qemu-system-x86_64; then
    if [ -e /usr/lib/u-boot/qemu-x86/u-boot.rom ]; then python3 "$here/uboot.py" "$work"; else echo "uboot: skipped, not installed: u-boot-qemu"; fi
fi
if part userland python3; then python3 "$here/userland.py" "$work"; fi

dpkg-query -W -f '${db:Status-Abbrev} ${Package} ${Version}\n' qemu-system-x86 ovmf u-boot-qemu util-linux fdisk libblkid1 parted gdisk grub-common sleuthkit busybox-static 2> /dev/null \
    | sed -n 's/^ii *//p' >> "$work/versions.txt" || true
status=0
python3 "$here/report.py" "$work" $accept >"$work/report.txt" || status=$?
echo "$(($(date +%s) - begun)) s; the table is $work/RESULTS.md"
cat "$work/report.txt"
exit $status
