#!/usr/bin/env python3
"""The version stands in the Makefile (VERSION := N.N.N). This compares what other files say of it: version.py [--write]

--write puts the Makefile's version into each. docs/ and CHANGELOG.md name files of a release: so do they. What it does
not write is the date in debian/changelog and CHANGELOG.md. The gate compares by tests/documents/test_cited.py.
"""
import re
import sys

from lib.programs import TOP

VERSION = re.findall(r"(?m)^VERSION := (\d+)\.(\d+)\.(\d+)$", (TOP / "Makefile").read_text())[0]
WHOLE, PARTS = ".".join(VERSION), ["MAJOR", "MINOR", "PATCH"]
# each file, what stands before the version, and the version as the file says it
Place = tuple[str, str, str]
PLACES: list[Place] = [
    ("crates/tftp_arguments/src/arguments.rt", r'VERSION: &str = "', WHOLE),
    ("crates/tftp_c/src/lib.rt", r"const VERSION: u32 = ", "0x" + "_".join(f"{int(number):02x}" for number in VERSION)),
    *(("include/tftp.h", f"#define TFTP_VERSION_{part} ", it) for part, it in zip(PARTS, VERSION)),
    ("packaging/tftp-config-version.cmake", r"set\(PACKAGE_VERSION ", WHOLE),
    ("packaging/tftp.pc", r"Version: ", WHOLE),
    ("examples/rust/Cargo.toml", r'\nversion = "', WHOLE),
    ("examples/rust/tftp-sys/Cargo.toml", r'\nversion = "', WHOLE),
    ("debian/changelog", r"\Afanjuvery \(", WHOLE),
    ("README.md", r"fanjuvery[-_]", WHOLE),
    ("docs/OPERATING.md", r"fanjuvery[-_]", WHOLE),
    ("CHANGELOG.md", r"\A.*?\n## ", WHOLE),
]


def faults(place: Place, writes: bool = False) -> list[str]:
    """What a place says otherwise than the Makefile, if nothing is written."""
    path, before, wanted = place
    text, shape = (TOP / path).read_text(), r"0x\w+|\d+\.\d+\.\d+" if len(wanted) > 3 else r"\d+"
    new, count = re.subn(rf"({before})({shape})", lambda match: str(match[1]) + wanted, text, flags=re.S)
    if writes and count:
        (TOP / path).write_text(new)
        return []
    return [f"{path}: no version behind {before!r}"] if not count else [f"{path}: not {wanted}"] * (new != text)


if __name__ == "__main__":
    found = [fault for place in PLACES for fault in faults(place, "--write" in sys.argv)]
    print(*found, f"version: {len(PLACES)} places, {len(found)} lines found", sep="\n")
    sys.exit(1 if found else 0)
