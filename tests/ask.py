"""Asks the reading of document 01 in tests/reading, which cargo builds first where it is not built; see its src/main.rs for the commands."""
import os
import subprocess
import tempfile

ROOT = os.path.dirname(os.path.dirname(os.path.abspath(__file__)))
FOLDER = os.path.join(ROOT, "target", "cargo")
BUILD = ["cargo", "build", "--quiet", "--release", "--offline", "--locked", "--manifest-path", os.path.join(ROOT, "tests", "reading", "Cargo.toml")]
built = False


def run(*words, given=b""):
    """What the reading prints."""
    global built
    if not built:
        subprocess.run(BUILD, env=dict(os.environ, CARGO_TARGET_DIR=FOLDER), check=True)
        built = True
    return subprocess.run([os.path.join(FOLDER, "release", "reading"), *words], input=given, stdout=subprocess.PIPE, check=True).stdout


def lines(command, given):
    """What it answers to each of some lines."""
    said = run(command, given=b"".join(line + b"\n" for line in given)).split(b"\n")[:-1]
    assert len(said) == len(given), (command, len(said), len(given))
    return said


def parted(output, names):
    """The output in parts, one behind each of the lines that are these names, in their order."""
    parts, waiting = [], list(names)
    for line in output.splitlines(keepends=True):
        if waiting and line == waiting[0].encode() + b"\n":
            waiting.pop(0)
            parts.append([])
        else:
            parts[-1].append(line)
    assert not waiting, waiting[0]
    return [b"".join(part) for part in parts]


def files(command, names):
    """What it says of each of some files. A single one is named twice, so that names head all."""
    twice = names if len(names) > 1 else names * 2
    return parted(run(command, *twice), twice)[:len(names)]


def texts(command, given):
    """What it says of each of some texts."""
    with tempfile.TemporaryDirectory() as folder:
        names = []
        for number, text in enumerate(given):
            names.append(os.path.join(folder, str(number)))
            with open(names[-1], "wb") as file:
                file.write(text)
        return files(command, names)


def made(count, seed, folder):
    """The names of files of generated texts, which are written to the folder."""
    run("make", str(count), str(seed), folder)
    return [os.path.join(folder, "%06d" % number) for number in range(count)]
