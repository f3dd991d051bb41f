"""Runs a command on a terminal of its own, as a user does, for the tests of the scripts of bin/.

    terminal.py type TEXT COMMAND..          types TEXT and the end of the input; ends with the command's status
    terminal.py interrupt HOW FILE COMMAND..  interrupts once FILE is there, and prints how the command ended

HOW is the name of a signal for the command's process, `Ctrl-C` for the key, or `all` to kill the command and the
process group of the process whose number stands first in FILE. What still runs afterwards is said.
"""

import fcntl
import os
import pty
import select
import signal
import sys
import termios
import time

SECONDS = 20
CTRL_C = b"\x03"
CTRL_D = b"\x04"


def start(command):
    """Starts the command, with signals as a shell leaves them. Gives its number, its terminal, and a pipe that is
    open as long as anything runs that the command started."""
    terminal, its_terminal = pty.openpty()
    running, held = os.pipe()
    process = os.fork()
    if process == 0:
        os.setsid()
        fcntl.ioctl(its_terminal, termios.TIOCSCTTY, 0)
        os.dup2(its_terminal, 0)
        os.set_inheritable(held, True)
        for name in (signal.SIGHUP, signal.SIGINT, signal.SIGQUIT, signal.SIGTERM, signal.SIGPIPE):
            signal.signal(name, signal.SIG_DFL)
        os.execvp(command[0], command)
    os.close(its_terminal)
    os.close(held)
    return process, terminal, running


def typed(text, command):
    process, terminal, _ = start(command)
    # The first Ctrl-D ends the line, the second the input.
    os.write(terminal, text.encode() + CTRL_D + CTRL_D)
    return os.waitstatus_to_exitcode(os.waitpid(process, 0)[1])


def interrupted(how, file, command):
    process, terminal, running = start(command)
    while not os.path.exists(file):
        time.sleep(0.01)
    if how == "Ctrl-C":
        os.write(terminal, CTRL_C)
    elif how == "all":
        os.kill(process, signal.SIGKILL)
        with open(file) as numbers:
            os.killpg(os.getpgid(int(numbers.read().split()[0])), signal.SIGKILL)
    else:
        os.kill(process, getattr(signal, "SIG" + how))
    ended = os.waitstatus_to_exitcode(os.waitpid(process, 0)[1])
    print(signal.Signals(-ended).name if ended < 0 else f"status {ended}")
    # The pipe can be read, as it is at its end, where nothing runs.
    if not select.select([running], [], [], 2)[0]:
        print("still running")
    return 0


signal.alarm(SECONDS)
if sys.argv[1] == "type":
    sys.exit(typed(sys.argv[2], sys.argv[3:]))
sys.exit(interrupted(sys.argv[2], sys.argv[3], sys.argv[4:]))
