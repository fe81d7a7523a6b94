#!/usr/bin/env python3
"""The two sheets of the program crate `shelf`, spelled by the encoder of make_sheets.py. From the repository's root:

    python3 vectors/make_samples.py

crates/shelf/stdin is the worked example of docs/FORMAT.md (Int64 and Decimal128(7, 2)),
crates/shelf/samples/loose_screws its example with parts and labels: our count sheet and a till's.
"""
import sys

sys.dont_write_bytecode = True

from make_sheets import INT32, INT64, STRUCT, Type, encode, holding  # noqa: E402

DECIMAL128 = 16


def worked_example():
    return [Type(INT64), Type(DECIMAL128, 7, 2)]


def loose_screws():
    """Our count sheet, then the till's export: unequal sets of names, so the fields are matched by place."""
    ours = holding(STRUCT, (b"cases", Type(INT32)), (b"loose", Type(INT32)))
    till = holding(STRUCT, (b"pieces", Type(INT64)), (b"cases", Type(INT64)))
    return [ours, till]


def main():
    samples = {"crates/shelf/stdin": worked_example(), "crates/shelf/samples/loose_screws": loose_screws()}
    for path, types in samples.items():
        with open(path, "wb") as file:
            file.write(encode(types))


if __name__ == "__main__":
    main()
