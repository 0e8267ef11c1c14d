"""The setup of YCSB's core workloads: a table of texts, and a procedure for each operation. Its ten fields and the
procedure for each of them are the same ten times over, so it is made here and not written by hand."""

FIELDS = range(10)
# How many keys a partition has, which is what a scan goes through.
SCANNED = 25


def notation(records):
    """The tables and procedures in the notation. Records have the keys from 0, and more come after them."""
    bounds = ", ".join(str(key) for key in range(SCANNED, min(records, 1_023 * SCANNED), SCANNED))
    reads = "\n".join(f"    let f{it} = record[key].f{it}" for it in FIELDS)
    all_fields = ", ".join(f"f{it}" for it in FIELDS)
    parts = [
        f"table record ({', '.join(f'f{it} text' for it in FIELDS)}) bounds [{bounds}]",
        f"proc read(key int) reads record[key] {{\n{reads}\n    reply {all_fields}\n}}",
        "proc insert_one(key int, value text) writes record[key] {\n    insert record[key] ("
        + ", ".join(["value"] * len(FIELDS)) + ")\n}",
        "proc scan(part int) reads record/part {\n    each key in record/part {\n        let f0 = record[key].f0\n"
        "        reply key, f0\n    }\n}",
    ]
    for it in FIELDS:
        parts.append(f"proc update_{it}(key int, value text) writes record[key] {{\n    record[key].f{it} = value\n}}")
        parts.append(
            f"proc modify_{it}(key int, value text) writes record[key] {{\n{reads}\n    record[key].f{it} = value\n"
            f"    reply {all_fields}\n}}"
        )
    return "\n\n".join(parts) + "\n"
