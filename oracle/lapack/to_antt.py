"""Writes lines of dtrexc_calls as the list `runs` of crates/laws_dtrexc/specs/Recorded.antt: python3 to_antt.py < dtrexc_calls.txt"""
import sys

for k, line in enumerate(sys.stdin):
    start, left, calls, end = (part.split() for part in line.split(":"))
    form = "".join(f"({left[i]}, {left[i + 1]}) ∷ " for i in range(0, len(left), 2))
    made = "".join(f"({calls[i]}, {calls[i + 1]}, {calls[i + 2]}) ∷ " for i in range(0, len(calls), 3))
    print(f"    {'∷ ' if k else ''}run {' '.join(start)} ({form}[]) ({made}[]) {' '.join(end)}")
print("    ∷ []")
