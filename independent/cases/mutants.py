#!/usr/bin/env python3
"""mutants.py FILE [LABEL..]: how much a file of recorded calls sees. Each edit is made in a copy of one file of the
independent device; recordcheck is built with it and must then tell differences. With no edit it must tell none. Run it
after make. A LABEL is a part of the labels of the edits to try; without one, all are tried."""
import os, subprocess, sys, tempfile

here = os.path.dirname(os.path.realpath(__file__))
top = os.path.dirname(here)
cc = os.environ.get("CC", "gcc")
patience = 60
unseen = ["WFI is no step"]  # it ends its thread, so no call can tell
device = os.path.join(top, "device")


def stop(text):
    print("mutants: " + text, file=sys.stderr)
    sys.exit(2)


def edits_of(folder):
    names = {}
    with open(os.path.join(folder, "edits.py")) as source:
        exec(source.read(), names)
    return names["edits"]


def edited(name, label, pairs):
    with open(os.path.join(device, name + ".c")) as source:
        text = source.read()
    for old, new in zip(pairs[::2], pairs[1::2]):
        if text.count(old) != 1:
            stop("%s: its old text stands %d times in %s.c" % (label, text.count(old), name))
        text = text.replace(old, new)
    return text


def other_objects(name):
    """Those that recordcheck is built from, but for the device's file of that name."""
    left_out = [os.path.join(device, f + ".c") for f in (name, "job", "replay")]
    left_out.append(os.path.join(top, "records", "record.c"))
    sources = [os.path.join(folder, f) for part in ("device", "cases", "records")
               for folder, _, files in os.walk(os.path.join(top, part)) for f in sorted(files) if f.endswith(".c")]
    return [os.path.join(top, "build", os.path.relpath(s, top))[:-1] + "o" for s in sources if s not in left_out]


def recordcheck(work, name, text):
    """The program with this text in the place of the device's file of that name."""
    source, program = os.path.join(work, name + ".c"), os.path.join(work, "recordcheck")
    with open(source, "w") as out:
        out.write(text)
    built = subprocess.run([cc, "-std=c11", "-O2", "-w", "-I", device, source] + other_objects(name) + ["-o", program])
    if built.returncode != 0:
        stop("recordcheck could not be built; make comes first")
    return program


def told(program, records):
    """What the program tells of the records, and its status."""
    try:
        run = subprocess.run([program, records], capture_output=True, text=True, errors="replace", timeout=patience)
    except subprocess.TimeoutExpired:
        return "did not end in %d s" % patience, None
    if run.returncode not in (0, 1):
        return "crashed (%d)" % run.returncode, run.returncode
    return run.stdout.splitlines()[-1], run.returncode


def not_seen(work, records, edits):
    missed = 0
    for name, label, *pairs in edits:
        text, status = told(recordcheck(work, name, edited(name, label, pairs)), records)
        missed += status == 0
        print("%-8s %-60s %s%s" % (name, label, "NOT SEEN " if status == 0 else "", text), flush=True)
    return missed


def main(records=None, *labels):
    edits = [e for e in edits_of(here) + edits_of(os.path.join(here, "kernels")) if e[1] not in unseen]
    if records is None or not os.path.isfile(records) or not all(any(l in e[1] for e in edits) for l in labels):
        stop("usage: mutants.py FILE [LABEL..], with a file of records and parts of labels")
    if labels:
        edits = [e for e in edits if any(l in e[1] for l in labels)]
    with tempfile.TemporaryDirectory() as work:
        text, status = told(recordcheck(work, "words", edited("words", "no edit", [])), records)
        if status != 0:
            stop("recordcheck %s does not end with 0 with no edit: %s" % (records, text))
        missed = not_seen(work, records, edits)
    print("%d edits, %d not seen" % (len(edits), missed))
    sys.exit(missed != 0)


main(*sys.argv[1:])
