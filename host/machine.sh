# Sourced by the scripts of host/. The library and the programs that rt makes are for x86-64. What links
# or runs them is built and run as ever on x86-64, and elsewhere by Debian's cross compilers and qemu.
# shellcheck shell=bash

emulator=
if [ "$(uname -m)" != x86_64 ]; then
    emulator=qemu-x86_64
fi

# run PROGRAM WORD..: runs a program that is for x86-64.
run() {
    ${emulator:+"$emulator"} "$@"
}

# python WORD..: Python for x86-64, which can load what links the library.
python() {
    if [ -z "$emulator" ]; then
        python3 "$@"
    else
        "$emulator" -L "$apart" "$apart/usr/bin/python3.11" "$@"
    fi
}

# compile COMPILER WORD..: calls gcc, g++ or clang so that it makes what is for x86-64.
compile() {
    case $emulator:$1 in
        :*) "$@" ;;
        *:clang*) "$1" --target=x86_64-linux-gnu "${@:2}" ;;
        *) "x86_64-linux-gnu-$1" "${@:2}" ;;
    esac
}

# need THING PACKAGE..: a command or a file, and the Debian packages that bring it where it is missing.
missing=()
need() {
    command -v "$1" > /dev/null || [ -e "$1" ] || missing+=("${@:2}")
}

# need_python: elsewhere than on x86-64 Debian installs Python for x86-64 only in place of the machine's own.
# It is unpacked into a folder of its own instead, in which the emulator looks first.
apart=${XDG_CACHE_HOME:-~/.cache}/mfp-python-amd64
missing_apart=()
need_python() {
    if [ -z "$emulator" ]; then
        need python3 python3
    elif [ ! -d "$apart" ]; then
        missing_apart=(python3.11-minimal:amd64 libpython3.11-minimal:amd64 libpython3.11-stdlib:amd64
            libexpat1:amd64 libffi8:amd64 zlib1g:amd64)
    fi
}

# need_cross: what C for x86-64 takes on another machine. clang takes its linker and libc from gcc's.
need_cross() {
    if [ -n "$emulator" ]; then
        need "$emulator" qemu-user
        need x86_64-linux-gnu-gcc gcc-x86-64-linux-gnu
        need /usr/x86_64-linux-gnu/include/stdio.h libc6-dev-amd64-cross
    fi
}

# install_missing: installs at one go what was needed and is missing. What is for x86-64 comes as packages of
# Debian's architecture amd64, which is added.
install_missing() {
    local all=("${missing[@]}" "${missing_apart[@]}")
    if [ "${#all[@]}" -gt 0 ]; then
        echo "missing, so installed: ${all[*]}" >&2
        { [ -z "$emulator" ] || dpkg --add-architecture amd64; } &&
            apt-get update -qq &&
            DEBIAN_FRONTEND=noninteractive apt-get install -qq -y --no-install-recommends "${missing[@]}" > /dev/null &&
            { [ "${#missing_apart[@]}" -eq 0 ] || unpack_apart; }
    fi
}

# unpack_apart: the folder is there once all of it is; if it fails, nothing is.
unpack_apart() {
    local part
    mkdir -p "$(dirname "$apart")" && part=$(mktemp -d "$apart.XXXXXX") &&
        if ! { unpack_into "$part" && mv -T "$part" "$apart"; }; then
            rm -rf "$part"
            return 1
        fi
}

# unpack_into FOLDER
unpack_into() {
    local debs=$1/debs deb
    mkdir "$debs" &&
        (cd "$debs" && apt-get download -qq -o APT::Sandbox::User=root "${missing_apart[@]}") &&
        for deb in "$debs"/*.deb; do dpkg-deb -x "$deb" "$1" || return; done &&
        rm -r "$debs"
}
