#!/bin/sh
# What the make targets need, and where it comes from. Nothing is installed here.
#   needs.sh             lists everything, and says what is missing
#   needs.sh FOR         fails in words where something that is marked FOR is missing
#   needs.sh --packages  the Debian packages of what is missing

: "${RT:=rt}" "${CC:=cc}" "${CXX:=c++}" "${RUSTC:=rustc}" "${CLANG:=clang}"

command_there() { command -v "$1" >/dev/null 2>&1; }
header_there() { echo "#include <$1>" | $CC -E -x c - >/dev/null 2>&1; }
rustc_there() { [ "$($RUSTC --version 2>/dev/null | sed 's/^rustc 1\.\([0-9]*\).*/\1/')" -ge 82 ] 2>/dev/null; }
fuzzer_there() { [ -e "$($CLANG -print-file-name=libclang_rt.fuzzer-x86_64.a 2>/dev/null)" ]; }

# Each line: what it is for | how it is looked for | its name | a Debian package, or - | where else it comes from
table() {
    cat <<END
archive|command_there $RT|$RT|-|the Rattle kit rattle-kit-13f; "rt version" tells which one is there
c|command_there $CC|$CC|gcc libc6-dev|
c|command_there $CXX|$CXX|g++|
rust|rustc_there|rustc 1.82 or newer|-|from rustup, or the distribution where its version is new enough
figure|command_there python3|python3|python3|
install|command_there pkg-config|pkg-config|pkg-config|
bench|header_there zimg.h|zimg.h|libzimg-dev|
bench|header_there libswscale/swscale.h|libswscale/swscale.h|libswscale-dev|
bench|header_there libavutil/avutil.h|libavutil/avutil.h|libavutil-dev|
bench|command_there python3|python3|python3|
valgrind|command_there valgrind|valgrind|valgrind|
fuzz|command_there $CLANG|$CLANG|clang|
fuzz|fuzzer_there|libFuzzer of $CLANG|libclang-rt-dev|
mutants|command_there objcopy|objcopy|binutils|
END
}

rows() {
    table | while IFS='|' read -r for how name packages from; do
        there=missing
        $how && there=there
        [ "$packages" = - ] || from="Debian, $packages"
        "$1"
    done
}
listed() { printf '%-9s %-7s %-22s %s\n' "$for" "$there" "$name" "$from"; }
missing() {
    [ "$there" = missing ] && [ "$for" = "$wanted" ] || return 0
    echo "$name is missing; it comes from: $from"
}
packaged() { [ "$there" = there ] || [ "$packages" = - ] || echo "$packages"; }

case "${1:-}" in
'') printf '%-9s %-7s %-22s %s\n' for '' what from; rows listed ;;
--packages) rows packaged | tr '\n' ' ' ;;
*)
    wanted=$1
    told=$(rows missing)
    [ -z "$told" ] && exit
    printf '%s\n' "$told" "\`make needs\` lists what is needed; \`make install-needs\` installs what Debian has." >&2
    exit 1
    ;;
esac
