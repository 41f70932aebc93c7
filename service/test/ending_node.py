"""ending_node.py NODE NUMBER MARK PLAN NODE FOLDER NAME: the stand-in for a node, whose process is killed before it writes for the NUMBERth
time: a fact to its file, or a block to its host. Only the process that makes the file MARK ends, and only if it is NODE."""
import os
import signal
import sys

import stand_in


class Ending:
    """Counts writes, and ends the process before the last one."""

    def __init__(self, number, mark):
        self.left = number
        self.mark = mark

    def before(self, write):
        def counted(*words):
            self.left -= 1
            if not self.left and not os.path.exists(self.mark):
                open(self.mark, "x", encoding="ascii").close()
                os.kill(os.getpid(), signal.SIGKILL)
            return write(*words)
        return counted


if __name__ == "__main__":
    ends, number, mark, plan, node, folder, name = sys.argv[1:]
    if node == ends:
        ending = Ending(int(number), mark)
        stand_in.Stand.keep = ending.before(stand_in.Stand.keep)
        os.write = ending.before(os.write)
    stand_in.node_of(plan, node, os.path.join(folder, name)).serve()
