"""The two programs that are compared."""

import pathlib
import subprocess

ROOT = pathlib.Path(__file__).resolve().parent.parent
CINDERSIM = ROOT / "crates" / "cindersim" / "out" / "cindersim"
OUT = ROOT / "peer" / "out"
PEER = OUT / "peer"


class Missing(Exception):
    """A program is not there and could not be made."""


def cindersim():
    if not CINDERSIM.exists():
        raise Missing(f"there is no {CINDERSIM}; build it by rt run < stdin in crates/cindersim")
    return CINDERSIM


def build_peer():
    OUT.mkdir(exist_ok=True)
    command = ["rustc", "-O", "--edition", "2021", "-o", PEER, ROOT / "peer" / "main.rs"]
    if subprocess.run(command).returncode:
        raise Missing("the peer does not compile")
