#!/usr/bin/env python3
"""Ten threads move money between the accounts of a bank, which one `vll serve` keeps.

    examples/serve/transfers.py [PROGRAM]       the program is ./vll without it
"""
import json
import random
import subprocess
import sys
import threading
from pathlib import Path

HERE = Path(__file__).resolve().parent
PROGRAM = sys.argv[1] if len(sys.argv) > 1 else HERE.parents[1] / 'vll'
THREADS, TRANSFERS = 10, 100

bank = subprocess.Popen([PROGRAM, 'serve', HERE / 'bank.json'], stdin=subprocess.PIPE, stdout=subprocess.PIPE)
turn = threading.Lock()


def call(client, proc, *args):
    """The answer to a call: one thread at a time writes a line and reads one."""
    with turn:
        bank.stdin.write(json.dumps({'client': client, 'proc': proc, 'args': args}).encode() + b'\n')
        bank.stdin.flush()
        return json.loads(bank.stdout.readline())


def move(client):
    draw = random.Random(client)
    for _ in range(TRANSFERS):
        call(client, 'transfer', draw.randrange(8), draw.randrange(8), draw.randrange(60))


threads = [threading.Thread(target=move, args=[client]) for client in range(THREADS)]
for thread in threads:
    thread.start()
for thread in threads:
    thread.join()
bank.stdin.close()
last = json.loads(bank.stdout.readline())
print(last['calls'], 'transfers,', sum(last['records']), 'in all accounts')
sys.exit(bank.wait() or last['calls'] != THREADS * TRANSFERS or sum(last['records']) != 800)
