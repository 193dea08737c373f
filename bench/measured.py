"""A repository on the side, with some of the crates and a program that measures them."""

import shutil
import subprocess
import sys
from pathlib import Path

TOP = Path(__file__).resolve().parent.parent

# A function of the program: 65,536 pseudo-random code points, the same at each run.
CODE_POINTS = """fn code_points(alloc: Global) -> Result<Vec<u32>> {
    let mut x = 12_345u32;
    let mut points = Vec::new(alloc);
    for _ in 0..1 << 16 {
        x = x.wrapping_mul(1_103_515_245).wrapping_add(12_345);
        points.push((x >> 8) % 0x11_0000)?;
    }
    Ok(points)
}
"""


def lines_of_crates(names):
    """The lines of crates.txt for the crates and all that these stand on, in its order."""
    lines = [line for line in (TOP / "crates.txt").read_text(encoding="utf-8").splitlines() if line[:1] not in ("#", "")]
    below = {line.split(":")[0]: line.split(":")[1].split() for line in lines}
    wanted, left = set(), list(names)
    while left:
        name = left.pop()
        if name in below and name not in wanted:
            wanted.add(name)
            left += below[name]
    return [line for line in lines if line.split(":")[0] in wanted]


def write_repository(folder, name, stands_on, files):
    """A repository with the crates that a program stands on, as their checks left them, and the program's files. The
    folder of the program is returned."""
    lines = lines_of_crates(stands_on)
    for line in lines:
        crate = line.split(":")[0]
        shutil.copytree(TOP / "crates" / crate, folder / "crates" / crate)
    source = folder / "crates" / name / "src"
    source.mkdir(parents=True)
    for file, text in files.items():
        (source / file).write_text(text, encoding="utf-8")
    lines.append(f"{name}: {' '.join(stands_on)}")
    (folder / "crates.txt").write_text("\n".join(lines) + "\n", encoding="utf-8")
    subprocess.run(["git", "init", "-q", str(folder)], check=True)
    return source.parent


def build(crate):
    """The program of the crate. Where none comes of it, what `rt` said is printed."""
    built = subprocess.run(["rt", "run"], cwd=crate, stdin=subprocess.DEVNULL, stdout=subprocess.PIPE, stderr=subprocess.STDOUT, text=True)
    program = crate / "out" / crate.name
    if not program.exists():
        sys.exit(built.stdout)
    return program
