#!/usr/bin/env python3
"""Rewrites cases that stand in a file of JSON objects, one a line, in the line format of crates/scripts/data/README.md.

    cases_from_json.py FILE.jsonl > FILE.txt

An output slice of more than 65,535 bytes becomes one of 65,535: no case here prints so much in one advance, so its
answer is the same. A host that lends real memory can then play the case.
"""

import json
import sys

ROOM_LIMIT = 65_535
WORDS = {"ended": "ended", "paused": "paused", "output full": "full"}


def block(word, content):
    """A line with a length, and so many bytes."""
    return f"{word} {len(content)}\n".encode() + content + b"\n"


def content(case, key):
    return bytes.fromhex(case[key + "_hex"]) if key + "_hex" in case else case[key].encode()


def check(case):
    answer = case["answer"]
    told = "accepted" if answer == "accepted" else f"refused {answer['refused']} {answer['place']}"
    return f"nodes {case['nodes']}\n{told}\n".encode()


def advance(answer):
    output = bytes.fromhex(answer["bytes_hex"])
    assert len(output) <= ROOM_LIMIT
    end = answer["end"]
    told = f"advance {answer['count']} {min(answer['slice'], ROOM_LIMIT)}\n"
    if isinstance(end, dict):
        told += f"fault {answer['steps']} {len(output)} {end['fault']} {end['place']} {end['name']}\n"
    else:
        told += f"{WORDS[end]} {answer['steps']} {len(output)}\n"
    # A name has one character for each of its bytes.
    return told.encode("latin-1") + output + b"\n"


def run(case):
    sizes = [case[key] for key in ("free_cells", "first_stack", "second_stack", "allowance")]
    close = [case["close"][key] for key in ("steps", "taken", "given_back")]
    told = block("input", content(case, "input"))
    told += ("sizes " + " ".join(map(str, sizes)) + "\n").encode()
    told += b"".join(map(advance, case["advances"]))
    return told + ("close " + " ".join(map(str, close)) + "\n").encode()


def main():
    cases = []
    with open(sys.argv[1], encoding="utf-8") as lines:
        for line in lines:
            case = json.loads(line)
            cases.append(block("text", content(case, "text")) + (check(case) if "answer" in case else run(case)))
    sys.stdout.buffer.write(b"\n".join(cases))


main()
