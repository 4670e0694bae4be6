"""Runs the published examples through the library: `published.py [FILE]`, by default host/data/published.json. Each is one test.

An example's text is read as its "base" says, and what is accepted is written again as the same text; its symbol is read as the text. Where
"signature_verified" says so, OpenSSL verifies the signature over exactly the signed part, with the document's own test
certificate: one byte more or less must not verify. A refused text has no signed part: there it is split at the mark 31.
"""

import base64
import json
import pathlib
import subprocess
import sys
import tempfile

import ddoc
import vectors

DATA = pathlib.Path(__file__).resolve().parents[1] / "data"


class OpenSSL:
    """The command openssl, with the certificate's key, in a folder for its files."""

    def __init__(self, folder):
        self.key = pathlib.Path(folder) / "key.pem"
        self.signature = pathlib.Path(folder) / "signature.der"
        certificate = DATA / "test_certificate.pem"
        self.key.write_bytes(self.run("x509", "-in", str(certificate), "-noout", "-pubkey", check=True).stdout)

    def run(self, *words, check=False, given=b""):
        return subprocess.run(["openssl", *words], input=given, capture_output=True, check=check)

    def verifies(self, signed, signature):
        """ECDSA over SHA-256."""
        self.signature.write_bytes(der(signature))
        answer = self.run("dgst", "-sha256", "-verify", str(self.key), "-signature", str(self.signature), given=signed)
        return answer.returncode == 0 and answer.stdout == b"Verified OK\n"


def der(signature):
    """The two numbers r and s of half the bytes each, as a DER sequence of integers."""
    half = len(signature) // 2
    numbers = b""
    for part in (signature[:half], signature[half:]):
        digits = part.lstrip(b"\0")
        if not digits or digits[0] > 127:
            digits = b"\0" + digits
        numbers += bytes([2, len(digits)]) + digits
    return bytes([48, len(numbers)]) + numbers


def right_header(parts):
    days = {"issue": parts["issue_day"], "signing": parts["signing_day"]}
    return vectors.header_of(parts | days)


def accepted_faults(text, base):
    """What is wrong with the reading, the conformity and the writing of a text that has to be accepted; its signed part."""
    message, fields = ddoc.read_text(text)
    signature = bytes(message.signature)[: message.signature_length]
    found = []
    if bytes(message.header) != bytes(right_header(base["header"])):
        found.append(f"header is {bytes(message.header).hex()}")
    names = ("row", "start", "length", "cut")
    are = [[getattr(field, name) for name in names] for field in fields]
    if are != [[field[name] for name in names] for field in base["fields"]]:
        found.append(f"records are {are}")
    data = [text[field.start : field.start + field.length].decode() for field in fields]
    if data != [field["data"] for field in base["fields"]]:
        found.append(f"data are {data}")
    if message.signed_length != base["signed_length"]:
        found.append(f"the signed part has {message.signed_length} characters, should have {base['signed_length']}")
    if signature.hex() != base["signature_hex"]:
        found.append(f"signature is {signature.hex()}")
    answer, _ = ddoc.call_conformity(bytes(message.header.type), fields)
    right = base["conformity"]
    right = (0, 0) if right == "conforms" else (right["refusal"], right["place"])
    if (answer.number, answer.place) != right:
        found.append(f"conformity is {answer.number} at {answer.place}, should be {right}")
    if ddoc.write_text(message.header, fields, text, signature) != text:
        found.append("what is written again is another text")
    return found, message.signed_length, signature


def faults(example, openssl):
    text = example["text"].encode("ascii")
    base = example["base"]
    if base["accepted"]:
        found, length, signature = accepted_faults(text, base)
    else:
        found = []
        try:
            ddoc.read_text(text)
            found.append("it is accepted")
        except ddoc.Refused as refusal:
            if (refusal.number, refusal.place) != (base["refusal"], base["place"]):
                found.append(f"{refusal}, should be {base['refusal']} at {base['place']}")
        signed, _, letters = text.partition(b"\x1f")
        length = len(signed)
        signature = base64.b32decode(letters + b"=" * (-len(letters) % 8)) if letters else b""
    symbol, _ = ddoc.write_symbol(text)
    if ddoc.read_symbol(symbol)[0] != text:
        found.append("its symbol is read as another text")
    if example["signature_verified"]:
        if not openssl.verifies(text[:length], signature):
            found.append("the signature does not verify over the signed part")
        for other in (length - 1, length + 1):
            if openssl.verifies(text[:other], signature):
                found.append(f"the signature verifies over {other} characters")
    return found


def describe(example):
    base = example["base"]
    words = "read and written again" if base["accepted"] else f"refused {base['refusal']} at {base['place']}"
    return words + (", signature verified" if example["signature_verified"] else "")


def run(examples, openssl):
    failed = 0
    for example in examples:
        try:
            found = faults(example, openssl)
        except ddoc.Refused as refusal:
            found = [str(refusal)]
        failed += bool(found)
        print(f"FAILED {example['key']}: {'; '.join(found)}" if found else f"ok {example['key']}: {describe(example)}")
    print(f"{len(examples) - failed} passed, {failed} failed")
    return failed


def main():
    path = pathlib.Path(sys.argv[1]) if len(sys.argv) > 1 else DATA / "published.json"
    try:
        with tempfile.TemporaryDirectory() as folder:
            examples = vectors.parse(path.read_text(encoding="utf-8"), path)
            return 1 if run(examples, OpenSSL(folder)) else 0
    except (OSError, subprocess.CalledProcessError, vectors.BadFile, ddoc.LibraryMissing) as fault:
        print(f"published: {fault}", file=sys.stderr)
    except (KeyError, TypeError, ValueError, AttributeError) as fault:
        print(f"published: {path}: not a list of examples: {type(fault).__name__} {fault}", file=sys.stderr)
    return 2


if __name__ == "__main__":
    sys.exit(main())
