# Sourced by nvme and media: builds what they run into target/nvme-cli, where it is missing or older than what it is made of.
# It is built beside and renamed, so that a build which fails leaves nothing that looks new.

. "$(dirname "${BASH_SOURCE[0]}")/../outside.sh"
here=$root/tools/nvme-cli
built=$root/target/nvme-cli
headers=("$root/include/card.h" "$root/examples/firmware/bytes.h" "$here/wire.h")
flags=(-O2 -Wall -Wextra -Werror)
mkdir -p "$built"

stale() { # MADE SOURCE..
    [ ! -f "$1" ] || [ -n "$(find "${@:2}" -newer "$1" -print -quit)" ]
}

build_card() {
    local made=$built/card library
    library=$(archive card_c)
    stale "$made" "$here/card.c" "${headers[@]}" "$library" || return 0
    x86_cc -std=c11 "${flags[@]}" -o "$made.new" "$here/card.c" "$library"
    mv "$made.new" "$made"
}

build_shim() {
    local made=$built/shim.so
    stale "$made" "$here/shim.c" "${headers[@]}" || return 0
    cc -std=gnu11 "${flags[@]}" -shared -fPIC -o "$made.new" "$here/shim.c" -ldl
    mv "$made.new" "$made"
}
