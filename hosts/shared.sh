# What the scripts of this folder share; they source it in the repository's folder.
machine=$(uname -m)

# kit: the folder of the Rattle kit.
kit() { dirname "$(rt doc)"; }

# fresh FILE SOURCE..: it is there, and no source is newer. Of the folder crates, what is made (out) and what is tried (must-fail) are no sources.
fresh() {
    local file=$1
    shift
    [ -f "$file" ] && [ -z "$(find "$@" -path 'crates/*/out' -prune -o -path 'crates/*/must-fail' -prune -o \( -type f -o -path 'crates/*/*' \) -newer "$file" -print -quit)" ]
}

# install PACKAGE..: installs Debian's packages where we may.
install() {
    [ "$(id -u)" -eq 0 ] && command -v apt-get >/dev/null || return 1
    { apt-get update -qq && DEBIAN_FRONTEND=noninteractive apt-get install -qq -y "$@"; } </dev/null >/dev/null 2>&1
}

# need COMMAND PACKAGE..: there is such a command, installed where it is missing and we may.
need() {
    local command=$1
    shift
    command -v "$command" >/dev/null && return 0
    install "$@" && command -v "$command" >/dev/null
}
