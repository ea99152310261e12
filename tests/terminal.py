"""python3 tests/terminal.py DESCRIPTOR SHOWN COMMAND ..: runs a command that has a terminal as this descriptor. What it
writes there goes to the file SHOWN, byte for byte; the status is the command's. No test itself.
"""
import os
import pty
import sys
import tty

descriptor, shown, command = int(sys.argv[1]), sys.argv[2], sys.argv[3:]
here, there = pty.openpty()
tty.setraw(there)  # or a newline would come as two bytes
child = os.fork()
if child == 0:
    os.dup2(there, descriptor)
    os.set_inheritable(descriptor, True)
    os.execvp(command[0], command)
os.close(there)
with open(shown, "wb") as file:
    try:
        while got := os.read(here, 4096):
            file.write(got)
    except OSError:
        pass  # so a terminal ends that nobody has open any more
sys.exit(os.waitstatus_to_exitcode(os.waitpid(child, 0)[1]))
