"""The built program and the baseline, for what runs both."""

import os
import subprocess
import sys
from pathlib import Path

HERE = Path(__file__).resolve().parent
TOP = HERE.parent
OUT = HERE / "out"
PROGRAM = TOP / "crates" / "jobshop" / "out" / "jobshop"
# std::simd is behind a feature gate of rustc
ALLOW_FEATURES = {"RUSTC_BOOTSTRAP": "1"}


def program_at(path=None):
    """The program at a path, or the one that is built."""
    program = Path(path).resolve() if path else PROGRAM
    if not program.exists():
        sys.exit(f"{program} isn't built yet: run ./build first")
    return program


def build_baseline():
    """Builds the baseline into bench/out, for the processors that the program is built for."""
    OUT.mkdir(exist_ok=True)
    baseline = OUT / "baseline"
    options = ["-C", "opt-level=3", "-C", "target-cpu=x86-64-v2", "--edition", "2024"]
    command = ["rustc", *options, "-o", baseline, HERE / "baseline" / "main.rs"]
    subprocess.run(command, check=True, env=os.environ | ALLOW_FEATURES)
    return baseline
