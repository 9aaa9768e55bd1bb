# What several tools share; each of them sources this file. It changes nothing by itself.
# shellcheck disable=SC2034 # the variables are for those tools

# The root of the repository.
root=$(cd "$(dirname "${BASH_SOURCE[0]}")/.." && pwd)

tool=tools/$(basename "$0")
oracle=oracle/target/release/oracle

# Ends a tool that was given wrong words.
usage() { # WORDS
    echo "usage: $tool${1:+ $1}" >&2
    exit 2
}

# Ends a tool that cannot do its work.
fail() { # WHY
    echo "$tool: $1" >&2
    exit 1
}

# Where `rt run` and `rt ci` leave a Rattle program that they built, from the root.
program_of() { echo "crates/$1/out/$1"; } # NAME

# Ends a tool where a Rattle program that it runs is not built.
need_built() { # NAME
    [ -x "$(program_of "$1")" ] || fail "there is no $(program_of "$1"); 'tools/prove $1' builds it"
}

build_oracle() { cargo build --release --offline --quiet --manifest-path oracle/Cargo.toml; }

machine() { echo "$(uname -m), $(nproc) cores, $(lscpu | sed -n 's/^Model name: *//p' | head -n 1)"; }

# Puts what comes on standard input in a document, between the lines `<!-- TOOL -->` and `<!-- end -->`.
write_part() { # DOCUMENT
    local part written
    part=$(cat)
    grep -qx "<!-- $tool -->" "$1" || fail "$1 has no line <!-- $tool -->"
    written=$(PART=$part awk -v mark="<!-- $tool -->" '
        !inside { print }
        $0 == mark { inside = 1; print ENVIRON["PART"] }
        inside && $0 == "<!-- end -->" { inside = 0; print }
        END { exit inside }' "$1") || fail "$1 has no line <!-- end --> after <!-- $tool -->"
    printf '%s\n' "$written" >"$1"
}
