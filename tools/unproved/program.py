"""Builds answers.rattle over edited crates with no proof, and asks it.

`rt try` compiles a program unproved, links it and runs it on nothing; a copy of the kit with a stand-in for its linker keeps what it makes. In that program
what the compiler may assume is checked, so that a wrong program breaks off rather than answers by chance."""
import pathlib, shutil, struct, subprocess

HERE = pathlib.Path(__file__).resolve().parent
ROOT = HERE.parent.parent
NAME = "answers"
SECONDS = 20
BREAKS = 8

LINKER = """#!/bin/sh
{real} "$@" || exit
while [ $# -gt 1 ]; do
    [ "$1" = -o ] && cp "$2" {kept}/program
    shift
done
exit 0
"""


def kit(folder):
    """A copy of the kit: links, but for rt, which finds the kit by its own place, and for the linker, in whose place the stand-in is."""
    real = pathlib.Path(shutil.which("rt")).resolve().parent.parent
    home, kept = folder / "kit", folder / "kept"
    kept.mkdir(parents=True)
    own = {pathlib.Path("bin/rt"), pathlib.Path("bin/rtlib.py"), pathlib.Path("toolchain/bin/ld.lld")}
    for part in (pathlib.Path(), pathlib.Path("bin"), pathlib.Path("toolchain"), pathlib.Path("toolchain/bin")):
        (home / part).mkdir()
        for there in (real / part).iterdir():
            if not any(path.is_relative_to(part / there.name) for path in own):
                (home / part / there.name).symlink_to(there)
    for path in own:
        shutil.copy(real / path, home / path) if path.parts[0] == "bin" else (home / path).write_text(LINKER.format(real=real / path, kept=kept))
        (home / path).chmod(0o755)
    return home


class Workshop:
    """A folder with the crates' sources and answers.rattle as one program more."""

    def __init__(self, folder):
        self.folder, self.kit, self.built = folder, kit(folder), 0
        for part in ("src", "specs"):
            for source in ROOT.glob(f"crates/*/{part}"):
                shutil.copytree(source, folder / source.relative_to(ROOT))
        (folder / "crates" / NAME / "src").mkdir(parents=True)
        shutil.copy(HERE / "answers.rattle", folder / "crates" / NAME / "src" / "main.rt")
        listed = [line.split("#")[0].split(":")[0].split() for line in (ROOT / "crates.txt").read_text().splitlines()]
        # A static library exports to C, and no crate names it.
        libraries = [c[0] for c in listed if len(c) == 1 and (ROOT / "crates" / c[0] / "src" / "lib.rt").is_file()]
        (folder / "crates.txt").write_text((ROOT / "crates.txt").read_text() + f"{NAME}: {' '.join(libraries)}\n")

    def build(self, changed):
        """The program over crates in which these files have these texts, or None and why they do not compile."""
        before, made = {}, self.folder / "kept" / "program"
        made.unlink(missing_ok=True)
        try:
            for name, text in changed.items():
                before[name] = (self.folder / name).read_text()
                (self.folder / name).write_text(text)
            words = [self.kit / "bin" / "rt", "try", "--steps", "1"]
            run = subprocess.run(words, cwd=self.folder / "crates" / NAME, stdin=subprocess.DEVNULL, capture_output=True, text=True)
        finally:
            for name, text in before.items():
                (self.folder / name).write_text(text)
        if not made.is_file():
            return None, run.stdout + run.stderr
        self.built += 1
        return made.rename(self.folder / f"program{self.built}"), ""


def ask(program, questions):
    """The answers to packed questions; None where the program breaks off or does not end. After some of those it is asked no more."""
    answers = []
    while len(answers) < len(questions) and answers.count(None) < BREAKS:
        asked = b"".join(questions[len(answers):])
        late = False
        try:
            out = subprocess.run([program], input=asked, capture_output=True, timeout=SECONDS).stdout
        except subprocess.TimeoutExpired as stopped:
            late, out = True, stopped.stdout or b""
        got = pieces(out)
        answers += got
        # A run that is late may only be slow: its last question is asked again, as the first.
        if len(answers) < len(questions) and not (late and got):
            answers.append(None)
    return answers


def pieces(out):
    """The answers in what the program wrote, but for one that is cut."""
    found, at = [], 0
    while at + 4 <= len(out):
        end = at + 4 + struct.unpack_from("<I", out, at)[0]
        if end > len(out):
            break
        found.append(out[at + 4:end])
        at = end
    return found
