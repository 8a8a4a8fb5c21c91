"""Scratch crates in the system's temporary folder, since `rt ci` wants no file of Rattle beside the crates: the definition as it stands, or
with an edit, and modules of theorems that the checker is to compute."""

import re
import shutil
import subprocess
import sys
import tempfile
from pathlib import Path

ROOT = Path(__file__).resolve().parent.parent
MOLANG = ROOT / "crates" / "molang"
SCRATCH = Path(tempfile.gettempdir()) / "sorbrudder-scratch"


def crate(folder, helpers, theorems, edit=None):
    """Writes a crate of the definition's specs/, the helper modules by name, and a module `Case0`, `Case1` .. for each theorem's text.

    `edit` is a must-fail edit of a file of specs/: its path in the crate, what is replaced, and by what.
    """
    crate = folder / "molang"
    shutil.rmtree(crate, ignore_errors=True)
    folder.mkdir(parents=True, exist_ok=True)
    (folder / "crates.txt").write_text("molang:\n")
    shutil.copytree(MOLANG / "specs", crate / "specs")
    if edit:
        path, old, new = edit
        text = (crate / path).read_text()
        if text.count(old) != 1:
            sys.exit(f"scratch: `{old}` does not stand once in {path}")
        (crate / path).write_text(text.replace(old, new))
    (crate / "src").mkdir()
    (crate / "src" / "lib.rt").write_text("// Only the definition and its cases.\n#![tactic(auto)]\n")
    proofs = crate / "proofs"
    proofs.mkdir()
    shutil.copy(MOLANG / "proofs" / "Computed.antt", proofs)
    modules = dict(helpers) | {f"Case{number}": text for number, text in enumerate(theorems)}
    for name, text in modules.items():
        (proofs / f"{name}.antt").write_text(text)
    (proofs / "Lib.antt").write_text("".join(f"pub mod {name}\n" for name in ["Computed", *modules]))
    return crate


def refused(crate):
    """The numbers of the theorems that the checker refuses; none where it proves the crate."""
    done = subprocess.run(["rt", "check"], cwd=crate, text=True, stdout=subprocess.PIPE, stderr=subprocess.STDOUT)
    log = crate.parent / "log"
    log.write_text(done.stdout)
    found = sorted({int(number) for number in re.findall(r"Case(\d+)\.antt:\d+:\d+: error", done.stdout)})
    if (done.returncode == 0) == bool(found) or (not found and "logic=proved" not in done.stdout):
        sys.exit(f"scratch: the checker's verdict is unclear; see {log}")
    return found
