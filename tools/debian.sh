# The Debian package: tools/package reads this file, and calls make_package.
# shellcheck shell=bash disable=SC2154
maintainer='Balsaeuchre maintainers <maintainers@users.noreply.balsaeuchre.example>'

# The newest symbols of the C library that the programs need.
wanted_libc() {
    programs "$1" | xargs -d '\n' objdump -T | grep -o 'GLIBC_[0-9.]*' | sed 's/GLIBC_//' | sort -Vu | tail -n 1
}

# The kibibytes of everything below a folder, each file rounded up.
kibibytes() {
    find "$1" -printf '%y %s\n' | awk '{size += $1 == "f" ? int(($2 + 1023) / 1024) : 1} END {print size}'
}

control() {
    cat <<END
Package: balsaeuchre
Version: $revision
Architecture: $(dpkg --print-architecture)
Maintainer: $maintainer
Installed-Size: $(kibibytes "$1")
Depends: libc6 (>= $(wanted_libc "$1")), libgcc-s1 (>= 3.0)
Suggests: libc6-dev, pkgconf, cmake
Section: devel
Priority: optional
Description: message-passing kernel after QNX Neutrino, machine-checked
 Threads of one program send, receive and reply as under QNX Neutrino. The
 kernel decides who gets which message; its code is proved to return what its
 specification says.
 .
 This package has the program qdemo, which runs scripts of kernel calls, and a
 static library with headers for C and C++.
${unproved:+ .
 This qdemo and this library were built without their proofs, with checks at
 run time.}
END
}

# The lines of the licences with the names of the libraries' copyright holders.
holders() {
    local name
    for name in $(libraries); do
        cat "$kit/rattle/$name"/LICENSE* 2>/dev/null |
            sed -En "s/^ *Copyright (\(c\) )?([0-9A-Z].*[^.])\.?$/ \2 ($name)/p" | grep -v '\[yyyy\]' | sort -u
    done
}

copyright() {
    cat <<END
Format: https://www.debian.org/doc/packaging-manuals/copyright-format/1.0/
Upstream-Name: Balsaeuchre
Upstream-Contact: $maintainer
Source: the repository of this name, at commit $(git -C "$top" rev-parse HEAD)

Files: *
Copyright: 2026 Balsaeuchre maintainers
License: MIT or Apache-2.0

Files: usr/bin/qdemo
Copyright: 2026 Balsaeuchre maintainers
$(holders)
License: MIT or Apache-2.0
Comment: the names in brackets are those of the libraries that are in the
 program. Those of slab and strsim are under the MIT licence alone.

License: MIT
$(sed '1,/^Copyright/d;/./,$!d' "$top/LICENSE-MIT" | sed '1{/^$/d};s/^$/./;s/^/ /')

License: Apache-2.0
 On Debian systems the text of the Apache License, version 2.0, is in
 /usr/share/common-licenses/Apache-2.0.
END
}

changelog() {
    cat <<END
balsaeuchre ($revision) unstable; urgency=medium

  * Version $version; changelog.gz lists what is new.

 -- $maintainer  $(date -R -d "@$SOURCE_DATE_EPOCH")
END
}

# Compresses the manual pages, and lets the links among them lead to the compressed ones.
compress_pages() {
    local page
    find "$1" -type l | while read -r page; do
        ln -s "$(readlink "$page").gz" "$page.gz"
        rm "$page"
    done
    find "$1" -type f -exec gzip -9n {} +
}

make_package() {
    local to=$room/package revision=$version-1${unproved:+~unproved} file
    file=balsaeuchre_${revision}_$(dpkg --print-architecture).deb
    LIBDIR=lib/$(${CC:-cc} -print-multiarch) put "$to" /usr
    mv "$to/usr/share/zsh/site-functions" "$to/usr/share/zsh/vendor-completions"
    compress_pages "$to/usr/share/man"
    (
        cd "$to/usr/share/doc/balsaeuchre" || exit
        rm LICENSE-*
        gzip -9n <CHANGELOG.md >changelog.gz
        rm CHANGELOG.md
        copyright >copyright
        changelog | gzip -9n >changelog.Debian.gz
    )
    settle "$to"
    mkdir "$to/DEBIAN"
    (cd "$to" && find usr -type f -print0 | sort -z | xargs -0 md5sum >DEBIAN/md5sums)
    control "$to" | sed '/^$/d' >"$to/DEBIAN/control"
    (cd "$to" && find usr/lib -name '*.so.*' | sed 's|.*/||; s|[.]so[.]| |; s|$| balsaeuchre|') >"$to/DEBIAN/shlibs"
    echo 'activate-noawait ldconfig' >"$to/DEBIAN/triggers"
    settle "$to"
    dpkg-deb --root-owner-group -Zxz --threads-max=1 --build "$to" "$folder/$file" >"$room/log"
    echo "$file"
}
