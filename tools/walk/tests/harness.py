"""The tiny crates of forms/: each has one form that a walk meets, its answers, and the walks that were proved for it.

A form's files have no .rt or .antt, since these would belong to a crate of the repository: `code` is its source, `specs` a module Sizes of
definitions where there is one, and `proofs/FOLDER` each walk."""
import os
import subprocess

HERE = os.path.dirname(os.path.abspath(__file__))
ROOT = os.path.dirname(os.path.dirname(os.path.dirname(HERE)))
FORMS = sorted(os.listdir(f"{HERE}/forms"))


NO_CODE = "rt has no command mir, which prints the code that walks are written from"


def prints_code():
    return "mir" in subprocess.run(["rt", "help"], capture_output=True, text=True).stdout.split()


def read(form, name):
    path = f"{HERE}/forms/{form}/{name}"
    return open(path).read() if os.path.isfile(path) else None


def make_repository(folder):
    """A repository of the forms, over walk_laws as it is proved in this one."""
    files = {"crates.txt": "walk_laws:\n" + "".join(f"{form}: walk_laws\n" for form in FORMS)}
    for form in FORMS:
        files[f"crates/{form}/src/lib.rt"] = read(form, "code")
        files[f"tools/walk/answers/{form}"] = read(form, "answers")
        if read(form, "specs"):
            files[f"crates/{form}/specs/Sizes.antt"], files[f"crates/{form}/specs/Lib.antt"] = read(form, "specs"), "pub mod Sizes\n"
    for path, text in files.items():
        os.makedirs(os.path.dirname(f"{folder}/{path}"), exist_ok=True)
        with open(f"{folder}/{path}", "w") as file:
            file.write(text)
    os.symlink(f"{ROOT}/crates/walk_laws", f"{folder}/crates/walk_laws")
    subprocess.run(["rt", "check", "walk_laws"], cwd=ROOT, check=True, stdout=subprocess.DEVNULL)
    os.makedirs(f"{folder}/target")
    for proved in ("rlib", "stamp"):
        os.makedirs(f"{folder}/target/{proved}")
        name = "walk_laws.rlib" if proved == "rlib" else "walk_laws"
        os.symlink(f"{ROOT}/target/{proved}/{name}", f"{folder}/target/{proved}/{name}")


def expected(form):
    """The walks that were proved for a form, by their folders."""
    folder = f"{HERE}/forms/{form}/proofs"
    return {name: read(form, f"proofs/{name}") for name in os.listdir(folder)} if os.path.isdir(folder) else {}
