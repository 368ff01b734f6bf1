# Functions of the scripts. `top` is the folder of the checkout. What `./zre` calls needs bash and coreutils alone.
# shellcheck shell=bash disable=SC2154

built=$top/crates/zre_cli/out/zre_cli
note=$top/crates/zre_cli/out/built
release=$top/release/zre-x86_64-linux
release_sum=$top/release/SUM

# The crates of this repository that a crate stands on, itself first.
crates_below() { # NAME
    local line name it
    local -A needs=() seen=()
    while IFS= read -r line; do
        [[ $line =~ ^([a-z0-9_]+)[^:]*:(.*)$ ]] && needs[${BASH_REMATCH[1]}]=${BASH_REMATCH[2]}
    done <"$top/crates.txt"
    local todo=("$1")
    while [ "${#todo[@]}" -gt 0 ]; do
        name=${todo[0]}
        todo=("${todo[@]:1}")
        [ -z "${seen[$name]:-}" ] || continue
        seen[$name]=yes
        echo "$name"
        for it in ${needs[$name]}; do
            [ -z "${needs[$it]+is here}" ] || todo+=("$it")
        done
    done
}

# Sets own_sums[NAME]: the sum of a crate's line of crates.txt and of the files in its src/, specs/ and proofs/.
declare -A own_sums=()
find_own_sum() { # NAME
    [ -z "${own_sums[$1]:-}" ] || return 0
    own_sums[$1]=$(
        cd "$top" || exit 1
        shopt -s globstar nullglob dotglob
        LC_ALL=C
        while IFS= read -r line; do
            [[ $line != "$1"[\ :]* ]] || printf '%s\n' "$line"
        done <crates.txt
        files=()
        for file in "crates/$1"/{src,specs,proofs}/**; do
            [ -d "$file" ] || files+=("$file")
        done
        sha256sum -- "${files[@]}" | sha256sum
    )
}

# Sets `sum`: the sum of all that a crate is made of: itself, the crates that it stands on, and what HANDLES allows.
find_sum() { # NAME
    local name sums=''
    for name in $(crates_below "$1" | LC_ALL=C sort); do
        find_own_sum "$name"
        sums+="$name ${own_sums[$name]}"$'\n'
    done
    sum=$({ cat "$top/HANDLES" && printf '%s' "$sums"; } | sha256sum | cut -d ' ' -f 1)
}

# Whether the program that lies in the checkout was built of sources with that sum, by the kit that is here, if one is.
is_built() { # SUM
    local sources='' kit=''
    [ -x "$built" ] && [ -f "$note" ] || return 1
    { IFS= read -r sources && IFS= read -r kit; } <"$note"
    [ "$sources" = "$1" ] && { ! command -v rt >/dev/null || [ "$kit" = "$(rt version)" ]; }
}

# Whether the release is of sources with that sum, and whole, and this machine runs it.
is_released() { # SUM
    local sources='' kit='' octets=''
    [ -x "$release" ] && [ -f "$release_sum" ] && [ "$(uname -sm)" = "Linux x86_64" ] || return 1
    { IFS= read -r sources && IFS= read -r kit && IFS= read -r octets; } <"$release_sum"
    [ "$sources" = "$1" ] && [ "$octets" = "$(sha256sum <"$release" | cut -d ' ' -f 1)" ]
}

# Sets `program` to a program of these sources: what this checkout has built, else the release, else what is built now.
find_program() {
    local sum
    find_sum zre_cli
    if is_built "$sum"; then
        program=$built
    elif is_released "$sum"; then
        program=$release
    else
        "$top/scripts/build" || return
        program=$built
    fi
}

# Ends the script where there is no toolchain, and says which one is needed: that by which the release was built.
need_rt() {
    local sources kit=''
    command -v rt >/dev/null && return
    [ ! -f "$release_sum" ] || { IFS= read -r sources && IFS= read -r kit; } <"$release_sum"
    echo "zre: proving and building need \`rt\` on the path, of ${kit:-the kit that README names}" >&2
    exit 2
}
