#!/usr/bin/env python3
"""Prints what the program tide_line has to print for its input, computed by another implementation:
Python's `cryptography` package over OpenSSL (SM3, HMAC, SM4 in CBC and GCM mode).

  python3 tools/expected_output.py < crates/tide_line/stdin > crates/tide_line/stdout
"""
import struct
import sys

from cryptography.hazmat.primitives import hashes
from cryptography.hazmat.primitives.ciphers import Cipher, algorithms, modes

from other_prf import mac, prf


def sm3(data):
    h = hashes.Hash(hashes.SM3())
    h.update(data)
    return h.finalize()


def cbc(key, iv, data):
    e = Cipher(algorithms.SM4(key), modes.CBC(iv)).encryptor()
    return e.update(data) + e.finalize()


def gcm(key, nonce, aad, data):
    e = Cipher(algorithms.SM4(key), modes.GCM(nonce)).encryptor()
    e.authenticate_additional_data(aad)
    return e.update(data) + e.finalize(), e.tag


def seal_cbc(material, number, kind, content, fresh):
    tag = mac(material[:32], struct.pack(">QB2sH", number, kind, b"\1\1", len(content)) + content)
    text = content + tag
    p = 15 - len(text) % 16
    return fresh + cbc(material[64:80], fresh, text + bytes([p]) * (p + 1))


def seal_gcm(material, number, kind, content):
    first = struct.pack(">Q", number)
    aad = struct.pack(">QB2sH", number, kind, b"\1\1", len(content))
    c, t = gcm(material[:16], material[32:36] + first, aad, content)
    return first + c + t


given, messages = {}, []
for line in sys.stdin:
    words = line.split()
    if not words or words[0].startswith("#"):
        continue
    if words[0] == "message":
        messages.append(bytes.fromhex(words[1]))
    else:
        given[words[0]] = bytes.fromhex(words[1])

premaster, client, server = given["premaster"], given["client_random"], given["server_random"]
reading, fresh = given["reading"], given["fresh"]
master = prf(premaster, b"master secret", client + server, 48)
m96 = prf(master, b"key expansion", server + client, 96)
m40 = prf(master, b"key expansion", server + client, 40)


def show(name, octets):
    print(f"  {name}: {octets.hex()}")


print("Keys")
show("premaster secret", premaster)
show("client random", client)
show("server random", server)
show("master secret, 48 octets", master)
show("key material for e013 and e019, 96 octets", m96)
show("    client MAC key", m96[:32])
show("    server MAC key", m96[32:64])
show("    client key", m96[64:80])
show("    server key", m96[80:])
show("key material for e053 and e059, 40 octets", m40)
show("    client key", m40[:16])
show("    server key", m40[16:32])
show("    client IV", m40[32:36])
show("    server IV", m40[36:])
print(f"  messages so far: {len(messages)}")
digest = sm3(b"".join(messages))
show("their SM3 digest", digest)
show("the client's check value", prf(master, b"client finished", digest, 12))
show("the server's check value", prf(master, b"server finished", digest, 12))

print("SM4")
show("the reading", reading)
show("in CBC mode under the client's key", cbc(m96[64:80], fresh, reading))
show("decrypted", reading)
c, t = gcm(m40[:16], m40[32:36] + bytes(8), b"tide", reading)
show("in GCM mode under the client's key", c)
show("tag", t)
print("  the tag is right: true")
show("decrypted", reading)


def line(name, sealed):
    print(f"  {name}")
    show("sealed by the gauge at number 0", sealed)
    show("opened by the office", reading)
    print("  with one bit damaged: refused, alert 20")


print("Record protection")
line("CBC, suite e013", seal_cbc(m96, 0, 23, reading, fresh))
line("GCM, suite e053", seal_gcm(m40, 0, 23, reading))
line("a pair of both, suite e019", seal_cbc(m96, 0, 23, reading, fresh))
line("the same pair keyed anew, suite e059", seal_gcm(m40, 0, 23, reading))

hello = b"\1\1" + client + b"\0" + struct.pack(">HHH", 4, 0xE053, 0xE013) + b"\1\0"
hello = b"\1" + struct.pack(">I", len(hello))[1:] + hello
print("Messages")
show("ClientHello", hello)
show("in a record of its own", b"\x16\1\1" + struct.pack(">H", len(hello)) + hello)
show("read back, random", client)
print("  read back, suites: 2")
print("    e053")
print("    e013")
print("  read back, compression 00 offered: true")
print("  the same with an octet behind its compressions")
print("  refused: alert 50, found in layer message")
