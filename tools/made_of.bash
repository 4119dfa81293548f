# Sourced by ./heap and ./library, which have set `top`, and have `say`: what something is made of, as checksums of the kit
# and of the files of crates, and how far rt is with their proofs.

# Other programs have the name rt too.
rt="$(type -P rt || echo /opt/rattle/bin/rt)"
kit="$(dirname "$(dirname "$(readlink -f "$rt")")")"
[ -x "$kit/bin/rattle" ] || rt=/opt/rattle/bin/rt kit=/opt/rattle
crates=()
declare -A below=() sums=()

# Finds the folders of the crates that crate $1 is made of, the lowest first. False if crates.txt has no line for it.
find_crates() {
    local low others
    while IFS=' :' read -r low others; do below[$low]="$others"; done < <(grep '^[a-z]' "$top/crates.txt" 2>/dev/null)
    [[ -v below[$1] ]] && add_crate "$1"
}

# Adds the folder of a crate, after those of the crates that it stands on.
add_crate() {
    local name
    for name in ${below[$1]}; do
        [[ ! -v below[$name] || " ${crates[*]} " == *" crates/$name "* ]] || add_crate "$name"
    done
    crates+=("crates/$1")
}

# Sets a checksum: that of the kit, or of the crates' files of one kind (src, specs or proofs).
find_sum() {
    [ -z "${sums[$1]-}" ] || return 0
    if [ "$1" = kit ]; then
        sums[kit]="$(cat "$kit/KIT-ID" 2>/dev/null || echo none)"
    else
        sums[$1]="$(cd "$top" && find "${crates[@]/%//$1}" crates.txt -type f \( -name '*.rt' -o -name '*.antt' -o -name '*.txt' \) \
            -print0 2>/dev/null | LC_ALL=C sort -z | xargs -0 sha256sum | sha256sum | cut -d" " -f1)"
    fi
}

# Prints the checksums of $1.., a line for each.
list_sums() {
    local of
    for of; do find_sum "$of" && echo "$of ${sums[$of]}"; done
}

# Whether the lines of file $1 are those of $2.. as they are now. Without a kit any kit will do.
is_made_of() {
    local list="$1" of
    shift
    [ -r "$list" ] || return 1
    for of; do
        find_sum "$of"
        [ "$of" = kit ] && [ "${sums[kit]}" = none ] || grep -qxF "$of ${sums[$of]}" "$list" || return 1
    done
}

# As many as RT_JOBS says, as rt has it; else as many as there are processors, and 2 GB of free memory for each.
jobs_for_proofs() {
    [[ ! "${RT_JOBS-}" =~ ^[1-9][0-9]*$ ]] || { echo "$RT_JOBS" && return; }
    awk -v most="$(nproc)" '/^MemAvailable/ { n = int($2 / 2000000) } END { print n < 1 ? 1 : n < most ? n : most }' /proc/meminfo
}

# Says which crates are proved, as their place among all, and which other command rt waits for: reads what rt says.
tell_progress() {
    local line name='' n
    while read -r line; do
        case "$line" in
            'crate '*) name="${line#crate }" && name="crates/${name%%:*}" ;;
            'logic=proved '*)
                for n in "${!crates[@]}"; do
                    [ "${crates[n]}" != "$name" ] || say "$((n + 1)) of ${#crates[@]} crates proved, with $(disk_used) of disk"
                done
                ;;
            'rt: waiting '*) say "${line#rt: }" ;;
        esac
    done
}

disk_used() {
    (cd "$top" && du -shc "${crates[@]/%//out}" 2>/dev/null | sed -n 's/\ttotal$//p')
}
