#!/usr/bin/env -S python3 -B
"""Prints the script that belongs to a seed and a job, by a second generator.

usage: generate_scripts.py [--seed N] [--job N]
       generate_scripts.py --sum JOBS [--seed N]

With --sum it prints a checksum of the texts of the jobs from 0 on, which a test of
`crates/test_generate` compares with that of the program's texts. It was written from the rules in
docs/FORMATS.md (`generate`) alone, and checks its numbers against those of PCG's C code.
"""

from comparing import options

MASK = 2**64 - 1
# The first outputs of PCG's C code, from the seed 42 on the sequence 54.
REFERENCE = [0xA15C02B7, 0x7B47F409, 0xBA1D3330, 0x83D2F293, 0xBFA4784B, 0xCBED606E]


def outputs(seed, sequence):
    """The outputs of PCG XSH RR 64/32, after the C code of its author."""
    increment = (sequence << 1 | 1) & MASK
    state = (increment + seed) & MASK
    while True:
        state = (state * 6364136223846793005 + increment) & MASK
        shifted, turn = ((state >> 18 ^ state) >> 27) & 0xFFFFFFFF, state >> 59
        yield (shifted >> turn | shifted << (-turn & 31)) & 0xFFFFFFFF


def piece(draw, job, index):
    """The lines of a branch's piece with this index."""
    row, key = draw(8), f"r{job}-{draw(2)}"
    if row in (0, 1):
        return [f"{('set', 'add')[row]} {key} 0 ={draw(100)}"]
    if row == 2:
        return [f"append {key} 0 ={draw(10)}"]
    if row in (3, 4):
        return [f"{('incr', 'decr')[row - 3]} {key} {1 + draw(9)}"]
    if row in (5, 6):
        return [(f"delete {key}", f"get {key} ?f")[row - 5]]
    return [f"gets {key} miss:l{index} >v", f"cas {key} 0 ={draw(100)} $v", f"l{index}:"]


def script(seed, job):
    """The text of a job's script."""
    drawn = outputs(seed, job)

    def draw(choices):
        return next(drawn) % choices

    lines = ["script 1", f"keys r{job}-0 r{job}-1", "flags f", "vars v"]
    lines += [f"budget {section} 24 8192" for section in "PAB"]
    lines += ["P", f"set r{job}-0 0 ={draw(100)} +f"]
    if draw(2) == 1:
        lines.append(f"set r{job}-1 0 ={draw(100)}")
    for section in "AB":
        lines.append(section)
        for index in range(1 + draw(3)):
            lines += piece(draw, job, index)
    return "\n".join(lines + ["end", ""])


def checksum(texts):
    """FNV-1a of 64 bits, over the texts one after the other."""
    total = 0xCBF29CE484222325
    for byte in "".join(texts).encode():
        total = ((total ^ byte) * 0x100000001B3) & MASK
    return hex(total)


def main():
    given = options.parser_of(__doc__, seed=1, job=0, sum=0).parse_args()
    drawn = outputs(42, 54)
    assert [next(drawn) for _ in REFERENCE] == REFERENCE
    if given.sum:
        print(checksum(script(given.seed, job) for job in range(given.sum)))
    else:
        print(script(given.seed, given.job), end="")


if __name__ == "__main__":
    main()
