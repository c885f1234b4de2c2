#!/usr/bin/env python3
# Prints src/tables.rt: what Python's hashlib and hmac (OpenSSL's implementation) give for the messages
# of 0 to 130 bytes that begin 1, 8, 15, .. (byte i is 7 * i + 1 modulo 256), under the key 0, 1, .. 31.
# Each digest stands as one number: its four big-endian 64-bit parts, xored.
import hashlib
import hmac

MESSAGE = bytes((7 * i + 1) % 256 for i in range(130))
KEY = bytes(range(32))


def folded(digest):
    parts = [int.from_bytes(digest[8 * i : 8 * i + 8], "big") for i in range(4)]
    return parts[0] ^ parts[1] ^ parts[2] ^ parts[3]


def table(name, what, values):
    print(f"\n// {what}")
    print(f"pub const {name}: [u64; {len(values)}] = [")
    for value in values:
        print(f"    0x{value:016x},")
    print("];")


print("// Written by vectors.py from Python's hashlib and hmac, which call OpenSSL: at n, the answer for the message")
print("// of n bytes of which byte i is 7 * i + 1 modulo 256, as the xor of its four big-endian 64-bit parts.")
table("DIGESTS", "SHA-256.", [folded(hashlib.sha256(MESSAGE[:n]).digest()) for n in range(131)])
table("MACS", "HMAC-SHA-256 under the key 0, 1, .. 31.", [folded(hmac.digest(KEY, MESSAGE[:n], "sha256")) for n in range(131)])
