#!/usr/bin/env bash
# fuzz_messages.sh SEED [COUNT]: gives message_check COUNT byte strings (100,000 if none is said), and looks that each gets an answer,
# and that what is accepted is spelled back to the same bytes. Some are random; the others are the stored messages with bytes changed,
# cut out, put in, doubled, or put together from two. The same seed gives the same strings. Run by hand.
set -euo pipefail
[ $# -ge 1 ] && [ $# -le 2 ] || { echo "usage: fuzz_messages.sh SEED [COUNT]" >&2; exit 2; }
top=$(cd "$(dirname "${BASH_SOURCE[0]}")/.." && pwd)
program=$("$top/tests/message_program.sh")
exec python3 - "$program" "$top/crates/message_check/stdin" "$1" "${2:-100000}" <<'PY'
import collections, random, re, subprocess, sys

program, stored, seed, count = sys.argv[1], sys.argv[2], int(sys.argv[3]), int(sys.argv[4])
lines = open(stored).read().split("\n")
fabric = lines[0]
messages = [bytes.fromhex(line) for line in lines[1:] if re.fullmatch("([0-9a-fA-F]{2})+", line)]
short = [m for m in messages if len(m) < 2500]
choose = random.Random(seed)

PLACED = "Decode\\((Short|Trailing|BadTag|TooLarge|NotAscending) { place: ([0-9]+) }\\)"
IN_PART = "(Stranger|BadShape|BadCert|WrongDigest) { part: [0-9]+ }"
SIGNED = "BadSignature { part: [0-9]+, fault: (BadLength|BadType|BadLeaf|WrongRoot) }"
ACCEPTED = "Ok [A-Za-z]+ ([0-9a-f]+)"


def random_bytes():
    return choose.randbytes(choose.choice([1, 2, 5, 20, 100, 1000]))


# Few bytes near the front say what stands where; half of all changes are there.
def place_in(message):
    reach = len(message) if choose.random() < 0.5 else min(len(message), 120)
    return choose.randrange(reach) if reach else 0


def changed(message):
    message = bytearray(message)
    for _ in range(choose.choice([1, 1, 1, 2, 4])):
        if message:
            at = place_in(message)
            message[at] = choose.choice([message[at] ^ 1 << choose.randrange(8), choose.randrange(256), choose.randrange(13)])
    return bytes(message)


def without(message):
    at = place_in(message)
    return message[:at] + message[at + choose.choice([1, 1, 2, 8, 32]):]


def with_more(message):
    at = place_in(message)
    return message[:at] + choose.randbytes(choose.choice([1, 1, 2, 8])) + message[at:]


def doubled(message):
    at = place_in(message)
    end = min(len(message), at + choose.choice([1, 2, 8, 53, 2401, len(message)]))
    return message[:end] + message[at:end] + message[end:]


def joined(message):
    other = choose.choice(short)
    return message[:place_in(message)] + other[place_in(other):]


def next_bytes():
    way = choose.randrange(20)
    if way == 0:
        return random_bytes()
    if way == 1:
        return b"\x01" + bytes([choose.randrange(14)]) + random_bytes()
    message = choose.choice(short if choose.random() < 0.9 else messages)
    if way == 2:
        return message
    if way < 9:
        return changed(message)
    if way < 11:
        return message[:place_in(message)]
    if way < 13:
        return without(message)
    if way < 15:
        return with_more(message)
    if way < 18:
        return doubled(message)
    return joined(message)


answers = collections.Counter()
faults = 0


def judge(given, answer):
    global faults
    accepted = re.fullmatch(ACCEPTED, answer)
    placed = re.fullmatch(PLACED, answer)
    if accepted:
        good = bytes.fromhex(accepted[1]) == given
    elif placed:
        place = int(placed[2])
        good = place == len(given) if placed[1] == "Short" else place < len(given)
    else:
        good = re.fullmatch(IN_PART, answer) or re.fullmatch(SIGNED, answer)
    answers["Ok" if accepted else re.sub("[0-9]+", "N", answer)] += 1
    if not good:
        faults += 1
        print("FAILED:", given.hex()[:200], "is answered", answer[:200])


left = count
while left > 0:
    batch = [next_bytes() for _ in range(min(left, 2000))]
    left -= len(batch)
    text = fabric + "\n" + "".join(given.hex() + "\n" for given in batch)
    run = subprocess.run([program, "back"], input=text, capture_output=True, text=True)
    got = run.stdout.split("\n")[:-1]
    if run.returncode != 0 or len(got) != len(batch):
        faults += 1
        print("FAILED: status", run.returncode, "and", len(got), "answers to", len(batch), run.stderr[:200])
        break
    for given, answer in zip(batch, got):
        judge(given, answer)

for answer, times in answers.most_common():
    print(f"{times:8} {answer}")
print(f"{sum(answers.values())} answered, {faults} failed")
sys.exit(1 if faults else 0)
PY
