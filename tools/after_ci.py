#!/usr/bin/env python3
"""Proves a static library over the libraries that `rt ci` has just proved, and builds it: crates/NAME/out/libNAME.a.

    tools/after_ci.py NAME

`rt ci` proves a static library and builds none. `rt lib` builds one, but first proves anew each library below it, since it does not take
those that `rt ci` leaves; their bytes are the same. This calls the kit's `rattle build` as `rt lib` does, with the libraries as they lie in
crates/*/out: so it proves NAME itself, once more, and nothing else. It is for a checkout that had no out/ when `rt ci` began, since `rt ci`
puts back the libraries that earlier runs left: tools/gate.sh looks. The exit status is not 0, with nothing done, where such a library is
found all the same, and where the kit's own words for that call are not to be had.
"""

import os
import subprocess
import sys
from pathlib import Path

ROOT = Path(__file__).resolve().parent.parent
JOBS = min(4, len(os.sched_getaffinity(0)))


def main():
    if len(sys.argv) != 2:
        sys.exit(__doc__)
    # A library that `rt check` or `rt lib` left has its stamp beside it, which `rt ci` writes to none.
    if any((ROOT / "crates").glob("*/out/rlib/stamp")):
        sys.exit("after_ci: an earlier run left libraries in out/")
    page = subprocess.run(["rt", "doc"], text=True, stdout=subprocess.PIPE, check=True).stdout.strip()
    kit = Path(page).parent
    sys.path.insert(0, str(kit / "bin"))
    sys.dont_write_bytecode = True
    try:
        import rtlib

        os.chdir(ROOT)
        (crate,) = [crate for crate in rtlib.crates_below(str(ROOT)) if crate.name == sys.argv[1]]
        words = crate.words(["--jobs", str(JOBS)], keeps=False)
    except Exception as error:
        sys.exit(f"after_ci: the kit's words for a build are not to be had: {error}")
    os.chdir(ROOT / "crates" / crate.name)
    os.makedirs("out", exist_ok=True)
    words += ["--toolchain", str(kit / "toolchain"), "--backend", "llvm", "-o", f"out/lib{crate.name}.a"]
    sys.exit(subprocess.run([str(kit / "bin" / "rattle"), "build", *words]).returncode)


main()
