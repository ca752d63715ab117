"""A person at a pseudo terminal: presses go in, and what comes out is done by a `Terminal`."""
import contextlib
import fcntl
import os
import pty
import select
import signal
import struct
import termios
import time

from terminal import Terminal

# The modes that the script switches on for a sitting: the alternate screen, the mouse, pastes.
MODES = {1049, 1000, 1006, 2004}
MARK = b'\x05'  # what the shell of a sitting sends when the script has ended, and nothing else does


class TooSlow(Exception):
    """The machine had no time for this: what came in pieces came too late to be one spelling."""


class Ended(Exception):
    """The program has ended, and nothing more comes."""


class Sitting:
    """The terminal tells its size when it is asked, but where `answers` is false."""

    def __init__(self, words, rows=33, columns=80, folder=None, variables=None):
        self.terminal = Terminal(rows or 24, columns or 80)
        self.answers = True
        self.status = None
        self.has_ended = self.is_put_back = False
        self.news, tell = os.pipe()
        hold, self.hold = os.pipe()
        self.shell, self.file = pty.fork()
        if self.shell == 0:
            try:
                size(0, rows, columns)
                os.chdir(folder or '.')
                be_shell(words, {**os.environ, 'TERM': 'xterm-256color', **(variables or {})}, tell, hold)
            finally:
                os._exit(127)
        os.close(tell)
        os.close(hold)
        self.before = termios.tcgetattr(self.file)
        os.write(self.hold, b'.')
        self.process = self.told()
        os.set_blocking(self.file, False)

    def read(self, seconds):
        """Does what has come, or comes within a time. False where nothing came."""
        if not select.select([self.file], [], [], 0 if self.has_ended else seconds)[0]:
            if self.has_ended:
                raise Ended
            return False
        try:
            data = os.read(self.file, 65536)
        except OSError:
            raise Ended from None
        self.has_ended |= MARK in data
        self.terminal.take(data.replace(MARK, b''))
        while self.terminal.answers and self.answers:
            self.press(self.terminal.answers.pop(0))
        return True

    def press(self, data):
        """Has the terminal send the bytes, and reads on while they wait."""
        while data:
            try:
                data = data[os.write(self.file, data):]
            except BlockingIOError:
                self.read(0.01)
            except OSError:
                raise Ended from None

    def press_in_pieces(self, data, sizes):
        """The same in pieces of these sizes, one after another; what follows an escape byte follows at once, and so does
        what follows the beginning of a sequence."""
        escaped, last = None, b''
        while data:
            count = next(sizes)
            piece, data = data[:count], data[count:]
            begun = time.monotonic()
            self.press(piece)
            if escaped and time.monotonic() - escaped > 0.08:
                raise TooSlow
            last = (last + piece)[-2:]
            escaped = begun if last.endswith((b'\x1b', b'\x1b[', b'\x1bO')) else None
            if not escaped:
                self.read(0)

    def hear(self, data):
        """Has the bytes, 63 at most, be heard at one time, and waits for the scene after that. False where none
        comes."""
        bells = self.terminal.bells
        self.press(data + b'\x04')
        return self.wait(lambda: self.terminal.bells > bells)

    def hear_long(self, data):
        """Waits until the bytes, of any number, are heard, and shown."""
        asked = self.terminal.asked
        self.press(data + b'\x0c')
        return self.wait(lambda: self.terminal.asked > asked)

    def wait(self, is_so, seconds=60):
        """Reads until it is so. False where it isn't after a time."""
        end = time.monotonic() + seconds
        while not is_so():
            left = end - time.monotonic()
            if left <= 0:
                return False
            self.read(min(left, 1))
        return True

    def scene(self):
        """Waits for the first scene after this moment."""
        seen = self.terminal.scenes
        return self.wait(lambda: self.terminal.scenes > seen)

    def rest(self, seconds):
        """Reads until nothing comes for a time."""
        while self.read(seconds):
            pass

    def settle(self, seconds=60):
        """Reads until the program waits for what is pressed next, and nothing comes any more, however busy the machine is, or
        until a time has gone."""
        end = time.monotonic() + seconds
        while time.monotonic() < end and (self.read(0.02) or not self.is_waiting() or self.read(0.02)):
            pass

    def is_waiting(self):
        """Whether the program neither runs nor waits for the disk. True where there is none."""
        try:
            with open(f'/proc/{self.program()}/stat', encoding='ascii', errors='replace') as file:
                return file.read().rpartition(')')[2].split()[0] not in 'RD'
        except OSError:
            return True

    def look_anew(self):
        """Has the whole screen painted again. What was shown before that is the terminal's `before` then. False where
        no such scene comes."""
        wipes = self.terminal.wipes
        self.press(b'\x0c')
        return self.wait(lambda: self.terminal.wipes > wipes and self.terminal.scenes > self.terminal.wiped_in)

    def resize(self, rows, columns):
        """Gives the window another size, which the host tells the script."""
        self.terminal.resize(rows, columns)
        size(self.file, rows, columns)

    def program(self):
        """The process of the program, which the script has begun; None where there is none."""
        try:
            with open(f'/proc/{self.process}/task/{self.process}/children', encoding='ascii') as children:
                found = [int(child) for child in children.read().split()]
        except OSError:
            return None
        return found[-1] if found else None

    def told(self, seconds=20):
        """The number that the shell tells next; None where none comes within a time."""
        if not select.select([self.news], [], [], seconds)[0]:
            return None
        data = os.read(self.news, 4)
        if len(data) < 4:
            raise Ended
        return int.from_bytes(data, 'little')

    def hang_up(self):
        """The terminal goes away. Returns the status of the script as `end` does."""
        os.close(self.file)
        self.file = None
        return self.ended()

    def end(self):
        """Reads all that comes until the script has ended, and returns its status; None where it doesn't end."""
        try:
            self.wait(lambda: False, 20)
        except Ended:
            pass
        return self.ended()

    def ended(self):
        """The status of the script. `is_put_back` says then whether the terminal is as it was in the beginning."""
        status = self.told()
        if status is not None:
            self.status = os.waitstatus_to_exitcode(status)
        if self.file:
            self.is_put_back = not MODES & self.terminal.modes and 25 in self.terminal.modes and (
                termios.tcgetattr(self.file) == self.before)
        self.stop()
        return self.status

    def stop(self):
        """Nothing is left of it."""
        if not self.shell:
            return
        if self.status is None:
            with contextlib.suppress(ProcessLookupError):  # (it may have ended unasked)
                os.kill(self.process, signal.SIGKILL)
        os.write(self.hold, b'.')
        os.waitpid(self.shell, 0)
        for file in (self.hold, self.news, self.file):
            if file:
                os.close(file)
        self.shell = self.file = None


def be_shell(words, variables, tell, hold):
    """Runs the script as a shell does, being the first process of its session, and tells its process and then its
    status. It begins when it is told to, and ends when it is told to, for with it what isn't read yet would be lost."""
    os.read(hold, 1)
    script = os.fork()
    if script == 0:
        os.setpgid(0, 0)
        signal.signal(signal.SIGTTOU, signal.SIG_IGN)
        os.tcsetpgrp(0, os.getpid())
        for number in (signal.SIGTTOU, signal.SIGHUP, signal.SIGPIPE):
            signal.signal(number, signal.SIG_DFL)
        os.execvpe(words[0], words, variables)

    def pass_on(number, _):
        with contextlib.suppress(ProcessLookupError):
            os.kill(script, number)

    signal.signal(signal.SIGHUP, pass_on)
    os.write(tell, script.to_bytes(4, 'little'))
    os.write(tell, os.waitpid(script, 0)[1].to_bytes(4, 'little'))
    with contextlib.suppress(OSError):
        os.write(1, MARK)
    os.read(hold, 1)


def size(file, rows, columns):
    fcntl.ioctl(file, termios.TIOCSWINSZ, struct.pack('HHHH', rows, columns, 0, 0))
