#!/usr/bin/env bash
# Shows that the compiler refuses each misuse of a permit, for the right reason, and accepts the right uses in the same setting.
# Usage: misuse.sh [REPOSITORY], by default the top level of the git repository. It works on a copy of the crates terms and permit and takes about a minute.
set -euo pipefail

root=$(cd "${1:-$(git rev-parse --show-toplevel)}" && pwd -P)
work=$(mktemp -d)
trap 'rm -rf "$work"' EXIT
mkdir "$work/crates"
for library in terms permit; do
    mkdir "$work/crates/$library"
    for part in src specs proofs; do
        [ ! -d "$root/crates/$library/$part" ] || cp -r "$root/crates/$library/$part" "$work/crates/$library"
    done
done
printf '%s\n' 'terms:' 'permit: terms' >"$work/crates.txt"

fail() {
    printf 'misuse: FAILED: %s\n' "$1" >&2
    [ ! -f "$work/said" ] || cut -c1-400 "$work/said" | head -n 20 >&2
    exit 1
}

# try_crate NAME: checks the tiny crate NAME, whose code comes from standard input.
try_crate() {
    mkdir -p "$work/crates/$1/src"
    echo "$1: terms permit" >>"$work/crates.txt"
    {
        printf '#![tactic(auto)]\n\n'
        printf 'use permit::%s;\n' acts::Returned desk::Desk permit::HeldPermit permit::LoadedPermit
        cat
    } >"$work/crates/$1/src/lib.rt"
    (cd "$work/crates/$1" && rt check) >"$work/said" 2>&1
}

# refused NAME ERROR WHAT [SECOND]: the check refuses the crate, and its only error is ERROR, in the crate itself; where SECOND is given, that is the only other one.
refused() {
    local status=0
    try_crate "$1" || status=$?
    [ "$status" -eq 1 ] || fail "$3: the check ended with status $status, not 1"
    [ "$(grep -c 'error\[' "$work/said")" -eq $((1 + ($# > 3))) ] || fail "$3: another number of errors than $((1 + ($# > 3)))"
    for error in "${@:2:1}" "${@:4}"; do
        grep -F "src/lib.rt:" "$work/said" | grep -qF "error$error" || fail "$3: not refused with $error"
    done
    printf 'misuse: %s: refused, as it must be (%s)\n' "$3" "$2"
}

# accepted NAME WHAT: the check proves the crate.
accepted() {
    try_crate "$1" || fail "$2: not accepted"
    grep -q '^logic=proved' "$work/said" || fail "$2: not proved"
    printf 'misuse: %s: accepted, as it must be\n' "$2"
}

accepted right_use 'handing back a held permit, dispatching a loaded one' <<'END'
pub fn give_up(desk: &mut Desk, permit: HeldPermit) -> Result<(), Returned<HeldPermit>> {
    desk.hand_back(permit)
}

pub fn send_off(desk: &mut Desk, permit: LoadedPermit) -> Result<(), Returned<LoadedPermit>> {
    desk.dispatch(permit)
}
END

refused held_lapses '[linear-value-let-go]: `permit` is let go where its block ends, and `Permit<Held>` is not `Drop`' \
    'letting a held permit lapse' <<'END'
pub fn lapse(permit: HeldPermit) -> u32 {
    permit.vehicle()
}
END

refused loaded_lapses '[linear-value-let-go]: `permit` is let go where its block ends, and `Permit<Loaded>` is not `Drop`' \
    'letting a loaded permit lapse' <<'END'
pub fn lapse(permit: LoadedPermit) -> u32 {
    permit.vehicle()
}
END

refused loaded_handed_back '[mismatched-types]: expected `Permit<Held>`, found `Permit<Loaded>`' \
    'handing back a loaded permit' <<'END'
pub fn give_up(desk: &mut Desk, permit: LoadedPermit) -> Result<(), Returned<HeldPermit>> {
    desk.hand_back(permit)
}
END

refused held_copied '[move-out-of-place]: cannot move out of `*permit` which is behind a shared reference' \
    'copying a held permit' <<'END'
pub fn copy(permit: &HeldPermit) -> HeldPermit {
    *permit
}
END

refused loaded_copied '[move-out-of-place]: cannot move out of `*permit` which is behind a shared reference' \
    'copying a loaded permit' <<'END'
pub fn copy(permit: &LoadedPermit) -> LoadedPermit {
    *permit
}
END

refused held_forged '[private-field]: field `vehicle` of struct `Permit` is private' \
    'making a held permit by hand' '[private-field]: field `state` of struct `Permit` is private' <<'END'
pub fn forge() -> HeldPermit {
    HeldPermit { vehicle: 7, state: permit::permit::Held }
}
END

refused loaded_forged '[private-field]: field `vehicle` of struct `Permit` is private' \
    'making a loaded permit by hand' '[private-field]: field `state` of struct `Permit` is private' <<'END'
pub fn forge() -> LoadedPermit {
    LoadedPermit { vehicle: 7, state: permit::permit::Loaded }
}
END
