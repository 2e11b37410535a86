#!/usr/bin/env python3
"""Shows that what was read from an image can't serve: a call of `serve` on a `Dormant` doesn't compile, and the same call on a `State` does.

Usage: bench/image_serves_nothing.py      (needs the toolchain's rt; it works on a copy of the sources)

No edit of the gate can say this, since an edit has to compile: so it is tried here.
"""
import os
import shutil
import subprocess
import sys
import tempfile

TOP = os.path.dirname(os.path.dirname(os.path.abspath(__file__)))
LIB = """//! One call of `serve`.
#![tactic(auto)]

use adr_cycle::{Reply, Request, serve};
use adr_call::{Failure, ServeRefusal};
use adr_image::{Contents, Dormant};
use adr_state::State;
use std::alloc::Global;

pub fn served(alloc: Global, source: &SOURCE, request: &Request) -> Result<Reply, Failure<ServeRefusal>> {
    serve(alloc, source, request)
}

pub fn contents(dormant: Dormant) -> Contents {
    dormant.into_contents()
}

#[cfg(test)]
mod tests {
    use std::test::Fail;

    #[test]
    fn it_compiles(_rt: HostRuntime) -> Result<(), Fail> {
        Ok(())
    }
}
"""


def below(name):
    """What a crate stands on, by crates.txt."""
    with open(f"{TOP}/crates.txt", encoding="utf-8") as lines:
        for line in lines:
            if line.startswith(f"{name}:"):
                return line.split(":")[1].split()
    sys.exit(f"crates.txt has no line for {name}")


def tried(room, source):
    """How a crate with this call is compiled: the status, and what was said."""
    with open(f"{room}/crates/one_call/src/lib.rt", "w", encoding="utf-8") as lib:
        lib.write(LIB.replace("SOURCE", source))
    made = subprocess.run(["rt", "try", "--test"], cwd=f"{room}/crates/one_call", stdin=subprocess.DEVNULL, stdout=subprocess.PIPE, stderr=subprocess.STDOUT, check=False)
    return made.returncode, made.stdout.decode(errors="replace")


def main():
    room = tempfile.mkdtemp(prefix="adrep-one-call-")
    try:
        shutil.copytree(f"{TOP}/crates", f"{room}/crates", ignore=shutil.ignore_patterns("out", "must-fail", "data"))
        for file in ("crates.txt", "HANDLES"):
            shutil.copy(f"{TOP}/{file}", f"{room}/{file}")
        os.makedirs(f"{room}/crates/one_call/src")
        stands_on = below("adr_image") + [it for it in below("adr_cycle") if it not in below("adr_image")] + ["adr_image", "adr_cycle"]
        with open(f"{room}/crates.txt", "a", encoding="utf-8") as lines:
            lines.write(f"one_call: {' '.join(stands_on)}\n")
        status, said = tried(room, "State")
        if status != 0:
            sys.exit(f"a call of serve on a State was refused:\n{said[-2000:]}")
        status, said = tried(room, "Dormant")
        if status == 0 or "expected `&State`, found `&Dormant`" not in said:
            sys.exit(f"a call of serve on a Dormant was not refused for its type:\n{said[-2000:]}")
        print("serve takes a State, and what was read from an image it doesn't:")
        print("\n".join(line for line in said.splitlines() if "error" in line)[:600].replace(room, "."))
    finally:
        shutil.rmtree(room, ignore_errors=True)


main()
