"""Each wrong body can be made and changes its files, and those that are tried in batches were refused over the texts as they are. NOT
PROVED; it trusts the records that dev/do wrong_bodies writes.

    dev/do check_edits

The gate tries those of crates/*/must-fail, and finds one that can't be made only after it has proved everything; dev/do wrong_bodies
tries those of crates/*/wrong-bodies, and leaves a record beside them. Prints each fault, and how many there are;
ends with 1 where there is one. This takes a second.
"""
import sys

from edits import BATCHES, GATE, files_of, libraries, read_edit, record_fault


def main():
    crates = sorted(libraries())
    edits = [(crate, folder, file) for crate in crates for folder in (GATE, BATCHES) for file in files_of(crate, folder)]
    faults = [f"{crate}/{folder}/{file.name}: {what}" for crate, folder, file in edits if (what := read_edit(file).fault)]
    faults += [f"{crate}: {what}" for crate in crates if files_of(crate, BATCHES) and (what := record_fault(crate))]
    for it in faults:
        print(f"check_edits: {it}", file=sys.stderr)
    print(f"{len(edits)} wrong bodies, {len(faults)} faults")
    return 1 if faults else 0


sys.exit(main())
