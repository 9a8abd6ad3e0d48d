"""A session at a gateway with process 2 alone: host 5 debugs it, stores two bytes, sets a breakpoint there, and is told when it is met.

    python3 examples/session.py            over target/staticlib/libpalustrode.a
    python3 examples/session.py LIBRARY    over another archive, or a shared object (examples/palustrode.py says how one is made)
"""
import sys

import palustrode as p


def show(what, result, written=b""):
    print(f"{what:30}{result:4}  {written.hex(' ')}".rstrip())


gateway = p.Gateway(p.load(*sys.argv[1:]), {2: 1536})
show("fresh start", gateway.started)

for what, cmd, arg1, arg2, string in [
    ("host 5: DEBUG", p.DEBUG, 0, 0, b""),
    ("DEPOSIT of 12 34 at 256", p.DEPOSIT, 256, 2, b"\x12\x34"),
    ("BREAK at 256", p.BREAK, 256, 0, b""),
    ("EXAMINE of 2 bytes there", p.EXAMINE, 256, 2, b""),
]:
    show(what, *gateway.request(gateway.write(5, cmd, 2, arg1, arg2, string)))
print(f"{'memory holds':36}{bytes(gateway.memory[256:258]).hex(' ')}")

result, notice, line = gateway.report(2, p.KIND_BPT, [0, 0, 0, 0, 0, 0, 0, 256, 0])
show("the process meets it: BPT", result, notice)

past = gateway.write(5, p.EXAMINE, 2, 1530, 16)
show("EXAMINE of 16 bytes at 1530", *gateway.request(past))
result, (limit, excess) = gateway.why(past)
end = result == -p.REFUSED_OUTSIDE and limit == p.LIMIT_END
print(f"{'  why?':30}{result:4}  {excess} bytes past {'the end of the process' if end else 'another limit'}")
