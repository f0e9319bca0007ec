"""Checks a record: PYTHONPATH=python python3 examples/check.py COMMITMENT SIZE NUMBER RECORD-FILE"""
import sys
from pathlib import Path

import vizhuthamen

commitment, size, number, record = sys.argv[1:]
code = 0
try:
    vizhuthamen.check(bytes.fromhex(commitment), int(size), int(number), Path(record).read_bytes())
except vizhuthamen.Refusal as refusal:
    code = refusal.code
print(f"code {code}: {vizhuthamen.meaning(code)}")
sys.exit(code)
