#!/usr/bin/env python3
"""Stands for another version of the program, which answers every so many messages otherwise.
Usage: other_version.py PROGRAM EVERY WORD ..   (by a script that a test writes)"""
import os
import subprocess
import sys
import threading


def hand_on():
    for read in iter(lambda: os.read(0, 65536), b''):
        room.stdin.write(read)
    room.stdin.close()


program, every, *words = sys.argv[1:]
if '--answers' not in words:
    os.execv(program, [program, *words])
room = subprocess.Popen([program, *words], stdin=subprocess.PIPE, stdout=subprocess.PIPE, bufsize=0)
threading.Thread(target=hand_on, daemon=True).start()
answers = open(room.stdout.fileno(), 'rb', closefd=False)
count = 0
while head := answers.readline():
    answer, count = answers.read(int(head.split(b' ')[2]) + 1), count + 1
    if count % int(every) == 0:
        answer = answer[:-2] + b' \n'
    os.write(1, head + answer)
sys.exit(room.wait())
