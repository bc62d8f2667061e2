# shellcheck shell=bash
# Sets what depends on ARCH, the architecture to build for: amd64, the default, or arm64. These are Debian's names. Scripts source it in
# the repository's folder.
#
#   machine   the architecture in the names of files
#   bin, out  the folders of built programs and libraries, and of compiled crates, below crates/NAME
#   CC        the C compiler, unless it is set
#   cross     the prefix of the names of ld, objcopy, ar and strip
#   hardened  options of the compiler for this architecture
#   kit       the file that stands in for the kit's wrappers of malloc, realloc and free, which are for x86-64
# shellcheck disable=SC2034
arch=${ARCH:-amd64}
case $arch in
    amd64) machine=x86_64 bin=bin out=out cc=cc cross='' hardened=-fcf-protection kit=() ;;
    arm64)
        machine=aarch64 bin=bin/arm64 out=out/arm64 cc=aarch64-linux-gnu-gcc cross=aarch64-linux-gnu-
        hardened=-mbranch-protection=standard kit=(c/kit/heap.c)
        ;;
    *) echo "$0: ARCH=$arch is neither amd64 nor arm64" && exit 2 ;;
esac
export CC="${CC:-$cc}"

# Prints the command that makes something for this architecture.
made_with() { if [ "$arch" = amd64 ]; then echo "make $1"; else echo "make ARCH=$arch $1"; fi; }

# Fails if a tool is missing, and names the Debian packages that have the tools for ARM64.
need_tools() { # TOOL ..
    local tool
    for tool; do
        command -v "$tool" > /dev/null && continue
        case $tool in aarch64-*) tool+=" (apt-get install gcc-aarch64-linux-gnu libc6-dev-arm64-cross)" ;; esac
        echo "$0: missing: $tool"
        exit 1
    done
}
