"""The drivers and the reference chip under a Python program, by the program `mcal_live` on a pipe.

    from mcal import Board
    board = Board('[Gpt]\\nGptChannelConfiguration = [ .. ]', program='path/of/mcal_live')
    board.Gpt_Init()
    board.on('GptNotification', 0, lambda: board.Gpt_StartTimer(0, 20))
    board.Gpt_StartTimer(0, 100)
    board.tick(100)
    board.interrupt(0)

Each service is a method of its name. Its arguments are numbers, or names of the standard as text. What it returns is
None, a name as text, a number, or a list of them. Callbacks run where the driver calls them, and may call services.
"""

import contextlib
import difflib
import os
import subprocess


MOST_TICKS = 1_000_000      # in one line

NOTICES = ('GptNotification', 'EcuM_CheckWakeup', 'EcuM_SetWakeupEvent', 'PwmNotification', 'IcuSignalNotification',
           'IcuTimestampNotification', 'AdcNotification', 'SpiJobEndNotification', 'SpiSeqEndNotification')

HOW_TO_START = ("build it by `tools/program mcal_live` in the repository, which prints its path, and give that as `program`"
                " or in the environment's MCAL_LIVE")


class Held(Exception):
    """What was asked for may not be done here; `cause` is the word that the program gives for why."""

    def __init__(self, what, cause):
        super().__init__(f'{what} is held: {cause}')
        self.cause = cause


class LetThrough(Exception):
    """A callback or a hook let a `Held` through, which it has to catch itself. The service or handler has ended without it."""


class WasReset(Exception):
    """The chip was reset by its watchdog, or while services or handlers were under way: they are gone, and never return."""

    def __init__(self, reason, dropped):
        super().__init__(f'{reason}, {dropped} dropped')
        self.reason, self.dropped = reason, dropped


class Refused(Exception):
    """The program refuses the configuration or a line, or doesn't start."""


class Step:
    """A step that was made: its number of frames, and its move as the report spells it."""

    def __init__(self, words):
        self.depth, self.move = int(words[0]), words[1]
        self.text = ' '.join(words[1:])


def value_of(word):
    """A number where the word is one, and else the word."""
    return int(word) if word.isdigit() else None if word == 'null' else word


def one_line(text):
    """The text, which has to be one line."""
    if '\n' in text:
        raise Refused('more than one line')
    return text


class Board:
    """The drivers of all modules on a chip, from power on."""

    def __init__(self, configuration='', program=None):
        program = program or os.environ.get('MCAL_LIVE', 'mcal_live')
        self.level = 0                  # the level at which calls begin
        self.depth, self.masked, self.pending = 0, False, frozenset()
        self._top = 0                   # the level of the top frame
        self.last = None                # the step that was made last, where a hook is there
        self._last = ''                 # the last line of the program
        self._callbacks, self._notices, self._errors = {}, [], []
        self._hook, self._hooking, self._device = None, False, {}
        try:
            self._pipe = subprocess.Popen([program], stdin=subprocess.PIPE, stdout=subprocess.PIPE)
        except OSError as error:
            raise Refused(f'{program} doesn\'t start ({error.strerror}): {HOW_TO_START}') from None
        if configuration and not configuration.endswith('\n'):
            configuration += '\n'
        if '---' in configuration.splitlines():
            raise Refused('the configuration has a line ---')
        self._send(configuration + '---')
        self._answer()

    def close(self):
        """Switches the board off, and returns the last line, which counts what was done."""
        if not self._pipe.stdout.closed:
            with contextlib.suppress(BrokenPipeError):
                self._pipe.stdin.close()
            self._last = self._pipe.stdout.read().decode().strip()
            self._pipe.stdout.close()
            self._pipe.wait()
        return self._last

    def __enter__(self):
        return self

    def __exit__(self, *_):
        self.close()

    # ---- the pipe

    def _send(self, text):
        if self._pipe.stdin.closed:
            raise Refused('the power is off')
        try:
            self._pipe.stdin.write(text.encode() + b'\n')
            self._pipe.stdin.flush()
        except BrokenPipeError:
            pass

    def _answer(self):
        """The lines of an answer, each as words without its number."""
        lines = []
        for line in self._pipe.stdout:
            words = line.decode().split()
            if words[0] == '>':
                self.depth = int(words[1])
                self._top = int(words[3]) if 'at' in words else 0
                self.masked = 'masked' in words
                at = words.index('pending') + 1 if 'pending' in words else len(words)
                self.pending = frozenset(int(word) for word in words[at:])
                return lines
            if words[0] == 'configuration':
                raise Refused(line.decode().strip())
            lines.append(words[1:])
        raise Refused('the program has ended')

    def line(self, text):
        """Sends a line of the script language, and returns the lines that answer it, each as words without its number."""
        self._send(one_line(text))
        lines = self._answer()
        self._refuse(text, lines)
        return lines

    @staticmethod
    def _refuse(text, lines):
        if lines and lines[0][0] == 'fault':
            raise Refused(f'{text}: {lines[0][1]}')

    @staticmethod
    def _hold(text, lines):
        if lines and lines[0][0] == 'held':
            raise Held(text, lines[0][1])

    def _do(self, text):
        lines = self.line(text)
        self._hold(text, lines)
        return lines

    def _by_steps(self):
        return self._hook is not None or bool(self._device)

    # ---- services, handlers and callbacks

    def __getattr__(self, name):
        if name.partition('_')[0] not in ('Mcu', 'Port', 'Gpt', 'Pwm', 'Icu', 'Adc', 'Spi', 'Dio', 'Wdg'):
            raise AttributeError(name)
        return lambda *arguments: self.call(name, *arguments)

    def call(self, service, *arguments):
        """Calls a service at the board's level, and returns its answer."""
        words = ' '.join('null' if argument is None else str(argument) for argument in arguments)
        if self._by_steps():
            self._do(f'call {self.level} {service} {words}')
            return self._finish(self.depth)
        return self._in_one_go(f'do {self.level} {service} {words}')

    def _in_one_go(self, line):
        """Begins a call or a handler, and asks for its first steps in the same go."""
        depth = self.depth + 1
        return self._finish(depth, self._do(f'next {line}'))

    def interrupt(self, line):
        """Lets the interrupt of a line enter, and runs its handler to its end."""
        if self._by_steps():
            self._do(f'enter {line}')
            self._finish(self.depth)
        else:
            self._in_one_go(f'serve {line}')

    def serve(self):
        """Lets the pending interrupts enter, until none may, and returns how many entered."""
        entered = 0
        for line in sorted(self.pending):
            with contextlib.suppress(Held):
                self.interrupt(line)
                entered += 1
        return entered

    def on(self, kind, number, callback):
        """Has a callback called for a notice of this kind and object."""
        if kind not in NOTICES:
            nearest = difflib.get_close_matches(kind, NOTICES, 1, 0)[0]
            raise ValueError(f'no notice is {kind!r}; did you mean {nearest!r}?')
        self._callbacks[kind, number] = callback

    def at_notice(self, watcher):
        """Has `watcher(kind, number)` called at each notice, ahead of its callback."""
        self._notices.append(watcher)

    def on_error(self, callback):
        """Has `callback(service, error, runtime)` called at each error report; `runtime` where it is a runtime error."""
        self._errors.append(callback)

    def at_each_step(self, hook):
        """Has `hook()` called before each step of a service or a handler. It isn't called inside itself. None: no hook."""
        self._hook = hook

    def device(self, unit, exchange):
        """Answers the words that a serial unit sends without a device: `exchange(word)` gives the one that comes in."""
        self._device[unit] = exchange

    def _finish(self, depth, moved=None):
        """Makes steps of the top frame, at this depth, until it ends, the first of which were `moved`, and returns its answer.
        Where a callback or a hook raises an exception the frame goes to its end without them."""
        level = self.level
        try:
            while True:
                for words in self._move_on() if moved is None else moved:
                    ended = self._told(words, self._top)
                    if ended is not None:
                        return ended[0]
                moved = None
        except (WasReset, Refused):
            raise
        except Exception as raised:
            while self.depth >= depth:
                self.line('finish')
            if isinstance(raised, Held):
                raise LetThrough(str(raised)) from raised
            raise
        finally:
            self.level = level

    def _move_on(self):
        """Makes a step of the top frame, or all to the next that tells something."""
        self._call_hook()
        if self._device:
            self._exchange()
        return self._do('step' if self._by_steps() else 'next')

    def _call_hook(self):
        if self._hook and not self._hooking:
            self._hooking = True
            try:
                self._hook()
            finally:
                self._hooking = False

    def _told(self, words, level):
        """Does what a line tells of; of the last one of a frame, its answer in a tuple."""
        kind = words[0]
        if kind == 'step':
            self.last = Step(words[1:])
        elif kind == 'note':
            self.level = level
            self._call_back(words[1], int(words[2]))
        elif kind in ('error', 'runtime'):
            for callback in self._errors:
                callback(words[1], words[2], kind == 'runtime')
        elif kind == 'return':
            values = [value_of(word) for word in words[2:]]
            return (None if not values else values[0] if len(values) == 1 else values,)
        elif kind == 'left':
            return (None,)
        elif kind == 'reset':
            raise WasReset(words[1], int(words[2]))
        return None

    def _call_back(self, kind, number):
        for watcher in self._notices:
            watcher(kind, number)
        if (kind, number) in self._callbacks:
            self._callbacks[kind, number]()

    def _exchange(self):
        """Asks a device for the word that comes in with the next step, where that begins one."""
        words = self.line('peek')[0]
        if words[:2] == ['next', 'write'] and words[2].endswith('.DATA'):
            unit = int(words[2][1])
            if unit in self._device:
                self.miso(unit, self._device[unit](int(words[3])))

    # ---- what happens outside

    def power_on(self):
        """Switches the board off and on."""
        self._do('power on')

    def reset(self, kind='power'):
        """Resets the chip. Where services or handlers were under way they are gone."""
        for words in self._do(f'reset {kind}'):
            if words[0] == 'reset' and int(words[2]) > 0:
                raise WasReset(words[1], int(words[2]))

    def tick(self, ticks):
        """Lets time go by, in ticks of the oscillator: all of them, also where the watchdog resets the chip at one of them."""
        reset = None
        while True:
            piece = min(ticks, MOST_TICKS)
            for words in self._do(f'tick {piece}'):
                if words[0] == 'reset':
                    reset = WasReset(words[1], int(words[2]))
            ticks -= piece
            if ticks == 0:
                break
        if reset:
            raise reset

    def pin(self, pin, high):
        """Sets the level outside of a pin."""
        self._do(f'level {pin} {int(high)}')

    def analog(self, channel, value):
        """Sets the level of a converter's input."""
        self._do(f'analog {channel} {value}')

    def trigger(self, channel):
        """Gives a pulse on a trigger input."""
        self._do(f'trigger {channel}')

    def miso(self, unit, *words):
        """Gives words that come in next on a serial unit."""
        self._do(f'miso {unit} ' + ' '.join(map(str, words)))

    def spifault(self, unit):
        """Has the word in transfer on a serial unit end as failed."""
        self._do(f'spifault {unit}')

    def fill(self, channel, *words):
        """Stores words in a serial channel's source array."""
        self._do(f'fill {channel} ' + ' '.join(map(str, words)))

    def detach(self):
        """Drops the last device on the serial bus."""
        self._do('detach')

    # ---- what is to be seen

    def peek(self):
        """The next move of the top frame, as the report spells it."""
        return ' '.join(self._do('peek')[0][1:])

    def show(self, what):
        """What `show` prints, a name with its values: `board.show('pins')['pin 3'] == [1]`."""
        rows = [' '.join(words).partition(':') for words in self._do(f'show {what}') if words != ['ok']]
        return {name: [value_of(word) for word in values.split()] for name, _, values in rows}

