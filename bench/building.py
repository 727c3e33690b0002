"""Builds the programs of the benchmarks. A .rt file may stand in crates/ alone, and the gate proves all that stands
there; so such a program is a text of its script, and is built in a clone of this repository."""
import pathlib
import subprocess
import sys

TOP = pathlib.Path(__file__).resolve().parent.parent


def build(folder, name, crates, text, words):
    """The program of this text, over these crates, proved and built in a clone of what is committed. A folder that is
    given again builds only what changed. The words are those of a first run, on no input."""
    if (folder / ".git").is_dir():
        subprocess.run(["git", "-C", folder, "fetch", "-q", TOP, "HEAD"], check=True)
        subprocess.run(["git", "-C", folder, "checkout", "-q", "-f", "FETCH_HEAD"], check=True)
    else:
        subprocess.run(["git", "clone", "-q", TOP, folder], check=True)
    crate = folder / "crates" / name
    (crate / "src").mkdir(parents=True, exist_ok=True)
    (crate / "src/main.rt").write_text(text)
    with (folder / "crates.txt").open("a") as listed:
        listed.write(f"{name}: {crates}\n")
    done = subprocess.run(["rt", "run", "--", *words], cwd=crate, stdin=subprocess.DEVNULL, stdout=subprocess.PIPE, text=True)
    if done.returncode != 0:
        sys.exit(f"{done.stdout}bench: the program was not built")
    return crate / "out" / name
