"""fake_node.py FILE: a node for tests. It stores a fact at `seal`, dies at `die`, is silent at `hang`, and dies at `ballot` after it has stored one."""
import sys
import time

facts = open(sys.argv[1], "a+")
facts.seek(0)
count = len(facts.read())
print(f"ready {count}\n.", flush=True)
for line in sys.stdin:
    if not line.endswith("\n"):
        break
    word = line.split()[0]
    if word in ("seal", "ballot"):
        facts.write("x")
        facts.flush()
    if word == "hang":
        time.sleep(1000)
    if word in ("die", "ballot"):
        sys.exit(1)
    if word == "bad":
        print("refused word\n.", flush=True)
    elif word == "seal":
        print("answer done\nstored\nsend c0 synod 0 5 success aa\n.", flush=True)
    else:
        print("answer done\n.", flush=True)
