"""The walks of crates, written from the code and the answers: as texts, laid out by `rt fmt` in a folder of their own, and compared with
the tree or put into it."""
import glob
import os
import subprocess
import tempfile

import source
from answers import Answers
from fault import Fault, ask
from proof import Program, Proof
from text import WRITTEN

ANSWERS = "tools/walk/answers"


def read_answers(root, crate, instead=()):
    path = f"{ANSWERS}/{crate}"
    ask(os.path.isfile(f"{root}/{path}"), f"{path} is not there: {crate} has no walks")
    return Answers(path, open(f"{root}/{path}").read(), instead)


def crates_with_answers(root):
    """In the order of crates.txt, so that what a crate depends on comes before it."""
    listed, answered = list(source.listed(root)), os.listdir(f"{root}/{ANSWERS}")
    for crate in answered:
        ask(crate in listed, f"{ANSWERS}/{crate}: crates.txt has no {crate}")
    return [crate for crate in listed if crate in answered]


def write(program, answers):
    """The texts of a crate's walks, by their paths."""
    written = {}
    for where, names, shows in answers.walks:
        for name in names:
            ask(f"{program.crate}::{name}" in program.functions, f"{where}: the code has no {name}")
        try:
            proof = Proof(program, names, answers, shows)
            path, proved = f"crates/{program.crate}/proofs/{proof.folder}/Proof.antt", proof.write()
        except AssertionError as form:
            raise Fault(f"{where}: {program.crate}::{'+'.join(names)} has a form that tools/walk has no steps for: {form}")
        ask(path not in written, f"{where}: a walk above is of {' '.join(names)}, too")
        written[path] = proved
    return written


def write_all(root, crates):
    """The walks of crates as they are to stand in the tree. Every crate's code is read before the first walk is written."""
    sources, written = source.Source(root), {}
    answered = [(crate, read_answers(root, crate)) for crate in crates]
    for program, answers in [(Program(root, crate, sources), answers) for crate, answers in answered]:
        texts = write(program, answers)
        answers.refuse_unused(texts.values())
        written.update(texts)
    return lay_out(root, written)


def lay_out(root, written):
    """The texts as `rt fmt` lays them out."""
    with tempfile.TemporaryDirectory() as folder:
        put(folder, {"crates.txt": open(f"{root}/crates.txt").read(), **written})
        ran = subprocess.run(["rt", "fmt"], cwd=folder, capture_output=True, text=True)
        ask(ran.returncode == 0, f"rt fmt: {ran.stdout}{ran.stderr}")
        return {path: open(f"{folder}/{path}").read() for path in written}


def put(root, texts):
    for path, text in texts.items():
        os.makedirs(os.path.dirname(f"{root}/{path}"), exist_ok=True)
        with open(f"{root}/{path}", "w") as file:
            file.write(text)


def others(root, written, crates):
    """What a check says of each walk in the tree that is not what was written for it, or that no answers give."""
    for path, text in written.items():
        if not os.path.isfile(f"{root}/{path}"):
            yield f"{path} is missing"
        elif open(f"{root}/{path}").read() != text:
            yield f"{path} is not what its answers give"
    for crate in crates:
        for path in sorted(glob.glob(f"crates/{crate}/proofs/**/Proof.antt", root_dir=root, recursive=True)):
            if path not in written and WRITTEN in open(f"{root}/{path}").read():
                yield f"{path} is of no walk in the answers"
