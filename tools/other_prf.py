"""HMAC-SM3 and the PRF by Python's `cryptography` package, for the programs that make expected outputs."""
from cryptography.hazmat.primitives import hashes, hmac


def mac(key, data):
    h = hmac.HMAC(key, hashes.SM3())
    h.update(data)
    return h.finalize()


def prf(secret, label, seed, n):
    seed = label + seed
    out, a = b"", seed
    while len(out) < n:
        a = mac(secret, a)
        out += mac(secret, a + seed)
    return out[:n]
