#!/usr/bin/env bash
# scripts/take.sh: what it copies and what it rejects, and a program that uses `tx_ring`, proved and run in the repository to
# which it was copied. `rt` uses the libraries that a checkout on this machine has built, and proves the rest there from
# nothing, which takes some minutes. The last line is `N passed, M failed, K skipped`.
. "$(dirname "$(readlink -f "$0")")/../scripts/checks.sh"
to=$scratch/repository

take() { "$top/scripts/take.sh" "$@"; }

ends_with() {
    local wanted=$1 status=0
    shift
    "$@" || status=$?
    [ "$status" = "$wanted" ]
}

# leaves_as_it_was STATUS COMMAND ..: it ends with this status, and no file of the repository changes.
leaves_as_it_was() {
    local said=0
    rm -rf "$scratch/before" && cp -a "$to" "$scratch/before" || return 1
    ends_with "$@" || said=1
    diff -r "$scratch/before" "$to" && [ "$said" = 0 ]
}

# takes NAME: copies it, and keeps the output.
takes() { take "$1" "$to" > "$scratch/taken" 2> "$scratch/told"; }

# is_whole: each crate that was copied has the files and the line that it has here, and nothing else.
is_whole() {
    local name part
    while read -r name; do
        for part in src specs proofs; do
            [ ! -e "$top/crates/$name/$part" ] || diff -r "$top/crates/$name/$part" "$to/crates/$name/$part" || return 1
        done
        for part in "$to/crates/$name"/*; do
            [[ ${part##*/} =~ ^(src|specs|proofs)$ ]] || { echo "$part"; return 1; }
        done
        grep -qxF "$(grep "^${name}[ :]" "$top/crates.txt")" "$to/crates.txt" || { echo "$name"; return 1; }
    done < "$scratch/taken"
}

# is_closed: the dependencies of a crate there that have a folder here come before it.
is_closed() {
    local name needs need seen=' '
    while IFS=: read -r name needs; do
        for need in $needs; do
            [ ! -d "$top/crates/$need" ] || [[ $seen == *" $need "* ]] || { echo "$name: no $need"; return 1; }
        done
        seen+="$name "
    done < "$to/crates.txt"
}

# prints_when_proved CRATE LINE: `rt run` there proves it and all below it, builds it and prints the line.
prints_when_proved() {
    [ "$(cd "$to/crates/$1" && timeout 2h rt run 2> "$scratch/said")" = "$2" ] || { tail -n 20 "$scratch/said"; return 1; }
}

# begin: an empty repository in place of the last one.
begin() { rm -rf "$to" && mkdir "$to"; }

# with_program CRATE LIBRARY: a program of the repository that uses the library, from standard input.
with_program() {
    mkdir -p "$to/crates/$1/src" && cat > "$to/crates/$1/src/main.rt" && echo "$1: $2 anyhow" >> "$to/crates.txt"
}

# ---- what is copied

begin
check 'takes poll_engine' takes poll_engine
check 'as the last of them' [ "$(tail -n 1 "$scratch/taken")" = poll_engine ]
check 'each file and each line' is_whole
check 'each crate behind those that it stands on' is_closed
check 'it prints the handles' grep -q 'HANDLES has to allow: Threads, Wait$' "$scratch/told"
check 'a second time nothing is to be done' leaves_as_it_was 0 take poll_engine "$to"
cp "$top/HANDLES" "$to/HANDLES"
check 'with these handles' takes poll_engine
check 'nothing is told' [ ! -s "$scratch/told" ]
printf 'mine:   napi_model   # of my own' >> "$to/crates.txt"
check 'takes another one as well' takes dql_core
check 'a line of its own stays' grep -qx 'mine:   napi_model   # of my own' "$to/crates.txt"
check 'and the new one has its own' grep -qx 'dql_core: thiserror' "$to/crates.txt"

# ---- what is rejected

check 'no such library' leaves_as_it_was 64 take napi_shared "$to"
check 'a program' leaves_as_it_was 64 take napi_replay "$to"
check 'one word alone' leaves_as_it_was 64 take dql_core
check 'no such folder' leaves_as_it_was 64 take dql_core "$to/none"
check 'this repository' ends_with 64 take dql_core "$top"
echo '// changed' >> "$to/crates/dql_core/src/lib.rt"
check 'a crate of that name with other contents' leaves_as_it_was 65 take tx_ring "$to"
cp "$top/crates/dql_core/src/lib.rt" "$to/crates/dql_core/src/lib.rt"
echo 'tx_ring: dql_core' >> "$to/crates.txt"
check 'a line of that name with other words' leaves_as_it_was 65 take tx_ring "$to"

# ---- a program that uses the copy

begin
check 'takes tx_ring' takes tx_ring
check 'with the limit below it' [ "$(cat "$scratch/taken")" = $'dql_core\ntx_ring' ]
check 'which takes no handle' [ ! -s "$scratch/told" ]
with_program sends 'tx_ring dql_core' << 'END'
//! Packets of 600 bytes under a limit of 1000: which are sent before the queue stops, and what is available then.
#![tactic(auto)]

ghost use Rattle.std.specs.Prelude.{◌≡◌, ◌↔◌, None, true};
ghost use Rattle.tx_ring.specs.Queue.{TransmitQueue, send_fault};
ghost use Rattle.tx_ring.specs.Ring.{ShowsQueue};

use anyhow::Result;
use dql_core::Dql;
use tx_ring::TxRing;

// A packet is sent exactly where nothing speaks against it.
fn is_sent(ring: &mut TxRing, bytes: u32) -> bool
    ensures { (t : TransmitQueue) → ShowsQueue ring.old t
        → (result ≡ true) ↔ (send_fault t bytes ≡ None) }
{
    ring.send(bytes).is_ok()
}

fn main(rt: HostRuntime) -> Result<()> {
    let mut ring = TxRing::new(rt.alloc(), 8, Dql::new(1000, 2000, 1000, 0)?)?;
    let sent = [600, 600, 600].map(|bytes| is_sent(&mut ring, bytes));
    println!(rt; "{sent:?}, {} available", ring.state().avail)?;
    Ok(())
}
END
! has rt 'a program over what was taken' || check 'a program over tx_ring is proved there' prints_when_proved sends '[true, true, false], -200 available'

sum_up
