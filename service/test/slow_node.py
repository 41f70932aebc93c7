"""slow_node.py SECONDS PROGRAM WORDS..: a node for tests, which takes each line so many seconds later than it comes to it."""
import subprocess
import sys
import time

with subprocess.Popen(sys.argv[2:], stdin=subprocess.PIPE) as node:
    for line in sys.stdin.buffer:
        time.sleep(float(sys.argv[1]))
        node.stdin.write(line)
        node.stdin.flush()
