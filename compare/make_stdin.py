#!/usr/bin/env python3
# Writes stdin and stdout of the program crates: token_vault_main, token_vault_zero, token_vault_short_record, token_vault_short_image, token_vault_empty.
# Beside each record stands the answer (number, value, events) that docs/FORMATS.md gives it; the image is carried on from record to record.
import pathlib

ROOT = pathlib.Path(__file__).resolve().parent.parent
MOST = 2**127 - 1


def put(b, at, width, x):
    b[at:at + width] = x.to_bytes(width, "little", signed=x < 0)


def image(tokens=(), holdings=(), credits=()):
    b = bytearray(36832)
    for token, kind, toll in tokens:
        b[3680 + 24 * (token - 48)] = kind
        put(b, 3680 + 24 * (token - 48) + 8, 16, toll)
    for base, rows in ((4064, holdings), (20448, credits)):
        for token, account, amount in rows:
            put(b, base + 1024 * (token - 48) + 16 * account, 16, amount)
    return bytes(b)


# signers: the addresses that signed; the caller where none are named
def record(operation, caller=0, token=0, other=0, flag=0, amount=0, fee=0, time=0, sequence=7, signers=None, items=()):
    b = bytearray(448)
    b[0:6] = bytes([operation, caller, token, other, flag, len(items)])
    put(b, 8, 8, time)
    put(b, 16, 4, sequence)
    put(b, 24, 8, sum(1 << a for a in ([caller] if signers is None else signers)))
    put(b, 32, 16, amount)
    put(b, 48, 16, fee)
    for i, (address, x) in enumerate(items):
        b[64 + 24 * i] = address
        put(b, 64 + 24 * i + 8, 16, x)
    return bytes(b)


def write(crate, stdin, answers):
    folder = ROOT / "crates" / crate
    (folder / "stdin").write_bytes(stdin)
    lines = "".join("answer=%d value=%d events=%d\n" % a for a in answers)
    (folder / "stdout").write_text(lines)


# token 48 moves, 49 has a toll of 3, 50 is frozen; the vault holds 100 of 48
start = image(
    tokens=[(48, 1, 0), (49, 1, 3), (50, 2, 0)],
    holdings=[(48, 1, 100), (48, 2, 2000), (48, 3, 500), (49, 3, 300)],
    credits=[(50, 5, MOST)],
)
run = [
    # before initialisation
    (record(24), (1, 0, 0)),
    (record(26, caller=5, token=50), (0, MOST, 0)),
    (record(1, caller=2, token=48, amount=0), (4, 0, 0)),
    (record(1, caller=2, token=48, amount=1000), (0, 0, 1)),
    (record(1, caller=2, token=48, amount=1000), (2, 0, 0)),
    # deposits up to the limit of 1000
    (record(24), (0, 100, 0)),
    (record(2, caller=2, amount=901), (6, 0, 0)),
    (record(2, caller=2, amount=900), (0, 0, 1)),
    (record(2, caller=2, amount=1), (6, 0, 0)),
    (record(26, caller=2, token=48), (0, 900, 0)),
    (record(2, caller=2, amount=-1), (4, 0, 0)),
    (record(2, caller=2, amount=10**30 + 1), (5, 0, 0)),
    (record(2, caller=2, amount=1, signers=[3]), (22, 0, 0)),
    (record(2, caller=9, amount=1), (3, 0, 0)),
    (record(2, caller=64, amount=1, signers=[]), (32, 0, 0)),
    (record(99), (32, 0, 0)),
    # payouts: 1000 - 40 - 60
    (record(5, caller=2, other=4, amount=40), (0, 0, 1)),
    (record(6, caller=2, items=[(4, 10), (5, 20), (6, 30)]), (0, 0, 3)),
    (record(6, caller=2, items=[(4, 400), (5, 501)]), (6, 0, 0)),
    (record(6, caller=2), (4, 0, 0)),
    (record(5, caller=2, other=1, amount=5), (13, 0, 0)),
    (record(24), (0, 900, 0)),
    # the operator and its limit of 50
    (record(5, caller=3, other=4, amount=1), (3, 0, 0)),
    (record(13, caller=2, other=3), (0, 0, 1)),
    (record(5, caller=3, other=4, amount=1), (6, 0, 0)),
    (record(10, caller=2, amount=50), (0, 0, 1)),
    (record(25, caller=3), (0, 50, 0)),
    (record(5, caller=3, other=4, amount=51), (6, 0, 0)),
    (record(5, caller=3, other=4, amount=50), (0, 0, 1)),
    (record(25, caller=2), (0, 850, 0)),
    (record(25, caller=9), (3, 0, 0)),
    # a second token, whose toll makes a deposit arrive short
    (record(27, token=49), (0, 0, 0)),
    (record(7, caller=3, token=49, amount=10), (10, 0, 0)),
    (record(20, caller=2, token=49, flag=1), (0, 0, 1)),
    (record(27, token=49), (0, 1, 0)),
    (record(7, caller=3, token=49, amount=10), (12, 0, 0)),
    (record(12, caller=2, token=49, amount=20), (0, 0, 0)),
    (record(29, caller=3, other=1, token=49, amount=5), (0, 0, 0)),
    (record(28, token=49), (0, 1, 0)),
    (record(28, token=2), (23, 0, 0)),
    # paused
    (record(18, caller=2), (0, 0, 1)),
    (record(18, caller=2), (18, 0, 0)),
    (record(2, caller=2, amount=1), (8, 0, 0)),
    (record(19, caller=2), (0, 0, 1)),
    # a fee of 9 leaves 1, and a batch adds 5 + 6: 862
    (record(3, caller=2, amount=10, fee=10), (4, 0, 0)),
    (record(3, caller=2, amount=10, fee=9), (0, 0, 2)),
    (record(4, signers=[2, 3], items=[(2, 5), (3, 6)]), (0, 0, 2)),
    (record(24), (0, 862, 0)),
    # frozen and thawed
    (record(30, token=48, flag=1), (0, 0, 0)),
    (record(2, caller=2, amount=1), (23, 0, 0)),
    (record(9, caller=2, amount=1), (0, 0, 1)),
    (record(30, token=48), (0, 0, 0)),
    (record(9, caller=2, amount=1), (0, 1, 1)),
    # migration to address 4: the snapshot of sequence 7 still shows 863
    (record(22, caller=2), (20, 0, 0)),
    (record(21, caller=2, other=4, time=1000), (0, 0, 1)),
    (record(22, caller=2, time=1000 + 172799), (21, 0, 0)),
    (record(22, caller=2, time=1000 + 172800), (0, 863, 1)),
    (record(24), (0, 0, 0)),
    (record(2, caller=2, amount=10), (11, 0, 0)),
    (record(2, caller=2, amount=10, sequence=8), (0, 0, 1)),
    (record(24), (0, 10, 0)),
    # a token deposit of the default token, and payouts of it; a batch credits nobody
    (record(7, caller=2, token=48, amount=5, sequence=8), (0, 0, 1)),
    (record(8, caller=2, token=48, other=4, amount=16, sequence=8), (6, 0, 0)),
    (record(8, caller=2, token=48, other=4, amount=5, sequence=8), (0, 0, 1)),
    (record(4, signers=[2], items=[(2, 5), (3, 6)], sequence=8), (22, 0, 0)),
    (record(26, caller=3, token=48), (0, 0, 0)),
    (record(26, caller=3, token=64), (32, 0, 0)),
    (record(27, token=64), (32, 0, 0)),
    (record(9, caller=9, amount=1, sequence=8), (3, 0, 0)),
    # limits: below the holding of 10 is 6, whoever asks; only the owner raises
    (record(10, caller=2, amount=0), (4, 0, 0)),
    (record(11, caller=9, amount=9), (6, 0, 0)),
    (record(11, caller=3, amount=2000), (3, 0, 0)),
    (record(11, caller=2, amount=2000), (0, 0, 1)),
    (record(12, caller=2, token=49, amount=0), (4, 0, 0)),
    # outside the vault
    (record(29, caller=1, other=4, token=48, amount=1), (14, 0, 0)),
    (record(30, token=63, flag=1), (14, 0, 0)),
    # settings refused
    (record(13, caller=3, other=5), (3, 0, 0)),
    (record(19, caller=2), (19, 0, 0)),
    (record(20, caller=2, token=0, flag=1), (9, 0, 0)),
    # a migration cancelled
    (record(21, caller=2, other=0, time=1000), (14, 0, 0)),
    (record(23, caller=2), (20, 0, 0)),
    (record(21, caller=2, other=4, time=1000), (0, 0, 1)),
    (record(23, caller=2), (0, 0, 1)),
    # handover to 5: the time to live (where the amount stands) that is stored when 5 accepts counts
    (record(16, caller=5), (15, 0, 0)),
    (record(15, caller=2, other=0), (14, 0, 0)),
    (record(15, caller=2, other=5, time=1000), (0, 0, 1)),
    (record(17, caller=2, amount=0), (4, 0, 0)),
    (record(17, caller=2, amount=60), (0, 0, 1)),
    (record(16, caller=4, time=1059), (16, 0, 0)),
    (record(16, caller=5, time=1060), (17, 0, 0)),
    (record(16, caller=5, time=1059), (0, 0, 1)),
    # the new owner revokes the operator
    (record(14, caller=2), (3, 0, 0)),
    (record(14, caller=5), (0, 0, 1)),
    (record(5, caller=3, other=4, amount=1), (3, 0, 0)),
]
write("token_vault_main", start + b"".join(r for r, _ in run), [a for _, a in run])

zero = image()
blank = record(24, sequence=0, signers=[])
write("token_vault_zero", zero + blank, [(1, 0, 0)])
write("token_vault_short_record", zero + blank + blank[:447], [(1, 0, 0), (32, 0, 0)])
write("token_vault_short_image", zero[:36831], [(30, 0, 0)])
write("token_vault_empty", b"", [(30, 0, 0)])
