"""The MCP795XX clock chip inside a Python test: a front end to the proved chip of libmcp795.so.

    from mcp795 import Chip, Code, Register, Bit

    chip = Chip('W20')
    chip.transfer([Code.EEWREN])                              # a frame: CS low, a byte, CS high
    chip.transfer([Code.EEWRITE, 0x10, 0x04, 0xD2])
    chip.advance(seconds=0.01)                                # [Event(after=164, .. line='WIP' ..)]
    chip.eeprom[0x10:0x12]                                    # b'\\x04\\xd2'

    chip.write(Register.SECONDS, [Bit.ST | 0x59])             # a WRITE frame
    chip.read(Register.MINUTES)                               # a READ frame
    chip.registers['MINUTES']                                 # what is stored, without a frame
    chip.irq, chip.wdo, chip.wip, chip.wel, chip.powered      # lines and bits at this moment

    chip.write(Register.EVENT_DETECT, [Bit.EVEN0 | Bit.EVLDB])
    chip.door = 1                                             # EVLS rises; chip.drum is EVHS
    chip.advance(seconds=1)                                   # IRQ falls after 16,384 ticks, 500 ms

Frames, time, power and the two inputs go through the chip's eight acts (select, byte, end, wait,
cut, up, evls, evhs), and the library alone answers them, as docs/RULES.md says.

Time. A tick is 1/32,768 s. Ticks pass in wait() and advance(), and on the bus: at an SPI clock of
spi_hz a byte takes 8/spi_hz seconds, which pass after the byte was answered. The default is 1 MHz,
so that a driver that polls WIP, OSCON or a flag comes to an end, as it does on a board.
Chip(spi_hz=None) has a bus that takes no time: only wait() and advance() move the clock, as on a
tape of ./run. It is for tests that count ticks by hand; a loop that only polls never ends there.
No time is lost: what is less than a tick is kept, exactly, and counts with the next.

A refusal (a byte to a chip that is not selected) raises Refused, and the chip is as it was. A frame
that is lawful and does nothing (a write without its enable) is no refusal: the test has to see it.

The library is the file that MCP795_LIBRARY names, else target/library/libmcp795.so of this tree;
tools/library builds it. Several chips may be used by several threads, but each by one at a time.
"""
from __future__ import annotations

import argparse
import collections.abc
import ctypes
import enum
import errno
import functools
import math
import operator
import os
import pathlib
import stat
import sys
import typing
from datetime import timedelta
from fractions import Fraction

__all__ = [
    'Act', 'Answer', 'BadText', 'Bit', 'Chip', 'Code', 'DEFAULT_SPI_HZ', 'Event', 'LibraryError', 'Part', 'Refused',
    'Register', 'Registers', 'SpiDev', 'Status', 'TICKS_PER_SECOND', 'WAIT_LIMIT',
]

TICKS_PER_SECOND = 32768
WAIT_LIMIT = 16777216       # the most ticks of one wait
DEFAULT_SPI_HZ = 1000000


class Part(enum.IntEnum):
    """The parts, by the sheet's numbers without MCP795: W or B, then the Kbits of EEPROM; the ID is blank."""
    W10 = 1
    W20 = 2
    B10 = 3
    B20 = 4


class Act(enum.IntEnum):
    """The eight acts."""
    SELECT = 0
    BYTE = 1
    END = 2
    WAIT = 3
    CUT = 4
    UP = 5
    EVLS = 6
    EVHS = 7


class Code(enum.IntEnum):
    """The instructions: the first byte of a frame."""
    SRWRITE = 0x01
    EEWRITE = 0x02
    EEREAD = 0x03
    EEWRDI = 0x04
    SRREAD = 0x05
    EEWREN = 0x06
    WRITE = 0x12
    READ = 0x13
    UNLOCK = 0x14
    IDWRITE = 0x32
    IDREAD = 0x33
    CLRWDT = 0x44
    CLRRAM = 0x54


class Status(enum.IntFlag):
    """The bits of STATUS."""
    WIP = 0x01
    WEL = 0x02
    BP0 = 0x04
    BP1 = 0x08


class Register(enum.IntEnum):
    """The registers 00h to 1Fh, by the functions that the sheet's register map gives them. SRAM is 20h to 5Fh."""
    HUNDREDTHS = 0x00
    SECONDS = 0x01
    MINUTES = 0x02
    HOURS = 0x03
    DAY = 0x04
    DATE = 0x05
    MONTH = 0x06
    YEAR = 0x07
    CONTROL = 0x08
    CALIBRATION = 0x09
    WATCHDOG = 0x0A
    EVENT_DETECT = 0x0B
    ALARM_0_SECONDS = 0x0C
    ALARM_0_MINUTES = 0x0D
    ALARM_0_HOURS = 0x0E
    ALARM_0_DAY = 0x0F
    ALARM_0_DATE = 0x10
    ALARM_0_MONTH = 0x11
    ALARM_1_HUNDREDTHS = 0x12
    ALARM_1_SECONDS = 0x13
    ALARM_1_MINUTES = 0x14
    ALARM_1_HOURS = 0x15
    ALARM_1_DAY = 0x16
    ALARM_1_DATE = 0x17
    POWER_DOWN_MINUTES = 0x18
    POWER_DOWN_HOURS = 0x19
    POWER_DOWN_DATE = 0x1A
    POWER_DOWN_MONTH = 0x1B
    POWER_UP_MINUTES = 0x1C
    POWER_UP_HOURS = 0x1D
    POWER_UP_DATE = 0x1E
    POWER_UP_MONTH = 0x1F


class Bit:
    """Masks of the registers' bits, by the sheet's names; TWELVE is 12/24, PM is AM/PM."""
    ST = CT = 0x80                                                      # SECONDS: ST on W, CT on B
    CALSGN, TWELVE, PM = 0x80, 0x40, 0x20                               # HOURS
    OSCON, VBAT, VBATEN = 0x20, 0x10, 0x08                              # DAY
    LP = 0x20                                                           # MONTH
    OUT, SQWE, ALM1, ALM0, EXTOSC, RS2, RS1, RS0 = 0x80, 0x40, 0x20, 0x10, 0x08, 0x04, 0x02, 0x01       # CONTROL
    WDTEN, WDTIF, WDDEL, WDTPLS, WD3, WD2, WD1, WD0 = 0x80, 0x40, 0x20, 0x10, 0x08, 0x04, 0x02, 0x01    # WATCHDOG
    EVHIF, EVLIF, EVEN1, EVEN0, EVWDT, EVLDB, EVHS1, EVHS0 = 0x80, 0x40, 0x20, 0x10, 0x08, 0x04, 0x02, 0x01  # EVENT_DETECT
    ALM0PIN, ALM0C2, ALM0C1, ALM0C0, ALM0IF = 0x80, 0x40, 0x20, 0x10, 0x08      # ALARM_0_DAY
    ALM1PIN, ALM1C2, ALM1C1, ALM1C0, ALM1IF = 0x80, 0x40, 0x20, 0x10, 0x08      # ALARM_1_DAY


class Answer(typing.NamedTuple):
    """What an act is answered."""
    refusal: int    # 0: done; else a number of the refusal table
    driven: bool    # SO was driven
    reply: int      # the byte that left SO, or the bits of an end; 0 where it was not driven
    count: int      # the ticks that a wait used, the bytes that a cut stored; else 0
    irq: int        # levels after the act, 1 high
    wdo: int


class Event(typing.NamedTuple):
    """A change of IRQ, WDO, WIP or an event flag: all that ends a wait. Two that change in one tick are two events."""
    after: int      # ticks since the advance, wait or byte began in whose time it came; 0 if an act made it at once
    at: int         # the chip's `now` at the change
    line: str       # 'IRQ', 'WDO', 'WIP', 'EVHIF' or 'EVLIF'
    irq: int        # the levels after it; WIP is a bit of STATUS, and 1 while a write cycle runs
    wdo: int
    wip: int
    evhif: int = 0  # the flags of EVENT_DETECT
    evlif: int = 0

    @property
    def level(self) -> int:
        """The new level of the line, or the flag, that changed."""
        return getattr(self, self.line.lower())


_LINES = 'IRQ', 'WDO', 'WIP', 'EVHIF', 'EVLIF'

# 71 to 75 are a tape's, for a line that is bad: no act is refused by them
_WORDS = {
    1: 'select, and the chip is selected already',
    2: 'byte or end, and the chip is not selected',
    3: 'the argument is not one that the act takes, or there is no such part',
    4: "a memory has not the part's length",
    5: 'power is off, and the act is select, byte, end or cut; or it is on, and the act is up',
    6: "the chip's record is out of range",
    8: 'the text is no saved chip',
    71: 'the line is longer than 64 bytes',
    72: 'the line is not of the form',
    73: 'the line has an unknown name',
    74: 'the line comes before a part, or names a part again',
    75: "the line's number has a needless zero, or more than 8 digits",
}


class Refused(Exception):
    """An act was refused, and nothing has changed. number: the row of the refusal table, words: what it says."""

    def __init__(self, number, act, argument):
        self.number = number
        self.words = _WORDS.get(number, 'no row of the table')
        self.act = act
        self.argument = argument
        super().__init__(number, act, argument)

    def __str__(self):
        shown = self.act
        if self.act in ('byte', 'cut'):
            shown += ' 0x%02X' % self.argument if self.argument >= 0 else ' %d' % self.argument
        elif self.argument or self.act in ('part', 'end', 'wait', 'evls', 'evhs'):
            shown += ' %s' % self.argument
        return '%s: refused by %d: %s' % (shown, self.number, self.words)


class BadText(Refused):
    """A text that is no saved chip; `line` is the first, from 1, with which it can be none."""

    def __init__(self, name, line, shown):
        super().__init__(8, 'load', name)
        self.line = line
        self.shown = shown
        self.args = name, line, shown

    def __str__(self):
        return '%s: refused by 8, line %d: %s' % (self.argument, self.line, self.shown)


class LibraryError(Exception):
    """The library is not there, or cannot be used."""


_STATE = 142        # the bytes of a chip without EEPROM and ID: the numbers of its saved form, in that order
_ANSWER = 6
_ID = 16
_ROOM = 4096        # every saved text fits in 2,108 bytes
_READ_LIMIT = 8192  # of a file: the first bad line of a longer one begins before that

# Where the state has what. Counts have three bytes each: five stand between SRAM and power, two at the end.
_PART = 0
_REGISTERS = slice(1, 33)
_EVENT_DETECT = 1 + Register.EVENT_DETECT
_SRAM = slice(33, 97)
_POWER = 112
_WEL = 114
_BP = 115
_STAGE = 117        # its kind; 0: not selected
_LEFT = 132         # ticks left of a write cycle
_EVLS = 133         # levels
_EVHS = 134

_LARGEST = 2**64 - 1

_numbers = ctypes.POINTER(ctypes.c_uint64)
_arrays = [ctypes.POINTER(ctypes.c_uint8), ctypes.c_size_t] * 3      # state, EEPROM, ID
_SYMBOLS = {
    'mcp795_new': [ctypes.c_uint64] + _arrays,
    'mcp795_act': _arrays + [ctypes.c_uint64, ctypes.c_uint64, _numbers],
    'mcp795_load': [ctypes.c_char_p, ctypes.c_size_t] + _arrays + [_numbers],
    'mcp795_save': _arrays + [ctypes.c_char_p, ctypes.c_size_t, _numbers],
}


def _library():
    named = os.environ.get('MCP795_LIBRARY')
    top = pathlib.Path(__file__).resolve().parent.parent
    return _library_at(os.path.abspath(named or str(top / 'target' / 'library' / 'libmcp795.so')))


@functools.lru_cache(maxsize=None)
def _library_at(path):
    if not os.path.isfile(path):
        raise LibraryError('%s is not there: run tools/library to build it, or let MCP795_LIBRARY name its file' % path)
    try:
        library = ctypes.CDLL(path)
        for name, arguments in _SYMBOLS.items():
            function = getattr(library, name)
            function.argtypes = arguments
            function.restype = ctypes.c_uint64
    except (OSError, AttributeError) as reason:
        raise LibraryError('%s is not what tools/library builds: %s' % (path, reason)) from None
    return library


def _other_state(library):
    """What to raise where the library refuses an array of _STATE bytes, whatever stands in it."""
    return LibraryError('the library and tools/mcp795.py have different state sizes: run tools/library (%s)' % library._name)


def _word(number):
    """A number for the library. What 64 bits cannot hold becomes their largest, which no act takes either."""
    number = operator.index(number)
    return number if 0 <= number <= _LARGEST else _LARGEST


def _octet(number, what):
    number = operator.index(number)
    if not 0 <= number <= 0xFF:
        raise ValueError('%s is to be 0 to 0xFF, not %d' % (what, number))
    return number


def _octets(data):
    # bytes(5) would be five zeros
    if isinstance(data, (int, str)):
        raise TypeError('bytes are wanted, or a list of numbers, not %r' % (data,))
    return bytes(data)


def _exact(number, what):
    """A number as a fraction, exactly: an int, a Fraction, a float, a Decimal."""
    if isinstance(number, str):
        raise TypeError('%s is to be a number, not %r' % (what, number))
    try:
        return Fraction(number)
    except OverflowError:
        raise ValueError('%s is to be finite, not %r' % (what, number)) from None


def _seconds(time):
    if isinstance(time, timedelta):
        return Fraction(time // timedelta(microseconds=1), 1000000)
    return _exact(time, 'a time')


class _Carry:
    """Adds up times and gives whole ticks; the rest of a tick is kept as rest/unit."""

    def __init__(self):
        self.rest, self.unit = 0, 1

    def add(self, time):
        under = time.denominator
        if self.unit % under:
            finer = under // math.gcd(self.unit, under)
            self.rest *= finer
            self.unit *= finer
        ticks, self.rest = divmod(self.rest + time.numerator * (self.unit // under), self.unit)
        return ticks

    def copy(self):
        other = _Carry()
        other.rest, other.unit = self.rest, self.unit
        return other


_PARTS = {word: part for part in Part for word in (part.name, part.name[:2], part.name[:2] + 'K', 'MCP795' + part.name)}


def _part_named(name):
    try:
        return _PARTS[name.upper()]
    except KeyError:
        raise ValueError('no part %r: there are %s, or 1 to 4' % (name, ', '.join(Part.__members__))) from None


class Registers(collections.abc.Mapping):
    """The registers as stored at one moment: by name ('SECONDS'), by Register or by address."""

    def __init__(self, stored):
        self._stored = bytes(stored)

    def __getitem__(self, key):
        try:
            return self._stored[Register[key] if isinstance(key, str) else Register(key)]
        except ValueError:
            raise KeyError(key) from None

    def __iter__(self):
        return iter(Register)

    def __len__(self):
        return len(self._stored)

    def __repr__(self):
        return 'Registers(%s)' % ', '.join('%s=0x%02X' % (key.name, self[key]) for key in self)


class Chip:
    """A chip of its own. It begins fresh: with power, registers and SRAM 0 (day, date and month 1), EEPROM and ID FFh.

    part: 1 to 4, a Part, or a name: 'W20', 'W2', 'W2K' and 'MCP795W20' are one.
    spi_hz: the SPI clock, or None for a bus that takes no time; see the module's text. It may be changed at any time.

    events: every change of IRQ, WDO, WIP, EVHIF and EVLIF, whatever made it, oldest first; a list that may be cleared.
    door, drum: the levels of the event inputs EVLS and EVHS. To set one is the chip's act.

    Two chips are equal (==) if the chip's state is: what save() writes. `now`, `events` and `spi_hz` are not compared.
    """

    def __init__(self, part=Part.W20, spi_hz=DEFAULT_SPI_HZ):
        if isinstance(part, str):
            part = _part_named(part)
        small = part in (Part.W10, Part.B10)
        self._blank(_library(), 128 if small else 256)
        refusal = self._lib.mcp795_new(_word(part), *self._arrays)
        if refusal == 6:
            raise _other_state(self._lib)
        if refusal:
            raise Refused(refusal, 'part', part)
        self._start(spi_hz)

    def _blank(self, library, size):
        self._lib = library
        self._lend(*((ctypes.c_uint8 * length)() for length in (_STATE, size, _ID)))

    def _lend(self, state, eeprom, ident):
        self._state, self._eeprom, self._id = state, eeprom, ident
        self._arrays = state, len(state), eeprom, len(eeprom), ident, len(ident)
        self._answer = (ctypes.c_uint64 * _ANSWER)()

    def _start(self, spi_hz):
        self.events = []
        self._now = 0
        self._carry = _Carry()
        self.spi_hz = spi_hz
        # the levels: a chip that was loaded may hold a line low, and that is no event
        self._irq, self._wdo = self._call(Act.WAIT, 0)[4:]

    def copy(self) -> Chip:
        """A second chip that is as this one is now, with its time and its events."""
        other = object.__new__(type(self))
        other.__dict__.update(self.__dict__)
        other._lend(*(type(a).from_buffer_copy(a) for a in (self._state, self._eeprom, self._id)))
        other.events = list(self.events)
        other._carry = self._carry.copy()
        return other

    def __copy__(self):
        return self.copy()

    def __deepcopy__(self, memo):
        return self.copy()

    def __eq__(self, other):
        if not isinstance(other, Chip):
            return NotImplemented
        return all(bytes(a) == bytes(b) for a, b in
                   zip((self._state, self._eeprom, self._id), (other._state, other._eeprom, other._id)))

    def __repr__(self):
        return '<Chip %s at %d ticks: power=%d selected=%d irq=%d wdo=%d wip=%d wel=%d door=%d drum=%d>' % (
            self.part.name, self.now, self.powered, self.selected, self.irq, self.wdo, self.wip, self.wel, self.door,
            self.drum)

    # The acts

    def act(self, code, number) -> Answer:
        """One act, by an Act or its number, and nothing else: no bus time. A refusal is an answer, and does not raise."""
        return self._act(code, number, self._now)

    def _call(self, code, number):
        self._lib.mcp795_act(*self._arrays, _word(code), _word(number), self._answer)
        return self._answer[:]

    def _act(self, code, number, since):
        before = self._levels()
        refusal, driven, reply, count, self._irq, self._wdo = self._call(code, number)
        if code == Act.WAIT:
            self._now += count
        levels = self._levels()
        if levels != before:
            self.events += [Event(self._now - since, self._now, line, *levels)
                            for line, old, new in zip(_LINES, before, levels) if old != new]
        return Answer(refusal, bool(driven), reply, count, self._irq, self._wdo)

    def _levels(self):
        """In the order of _LINES."""
        events = self._state[_EVENT_DETECT]
        return self._irq, self._wdo, int(self._state[_LEFT] > 0), events >> 7, events >> 6 & 1

    def _do(self, act, number, since=None):
        answer = self._act(act, number, self._now if since is None else since)
        if answer.refusal:
            raise Refused(answer.refusal, act.name.lower(), number)
        return answer

    def select(self) -> None:
        """CS falls: a frame opens."""
        self._do(Act.SELECT, 0)

    def byte(self, value) -> typing.Optional[int]:
        """Eight bits in. Gives the byte that left SO, None where SO is off. Then the time of the byte passes."""
        answer = self._do(Act.BYTE, value)
        self._clocks(8)
        return answer.reply if answer.driven else None

    def end(self, leftover=0) -> typing.Optional[int]:
        """CS rises, after 0 to 7 bits of a byte that was not finished. Gives what they are as a number, None where no bit
        left SO. Then the time of these bits passes."""
        answer = self._do(Act.END, leftover)
        self._clocks(leftover)
        return answer.reply if answer.driven else None

    def wait(self, ticks) -> int:
        """Lets at most this many ticks pass, 16,777,216 or less: it ends after the first that changes IRQ, WDO, WIP or an
        event flag. Gives the ticks that passed. advance() goes on over such changes."""
        return self._do(Act.WAIT, ticks).count

    def cut(self, mask=0) -> int:
        """Power fails. Of a page write that is under way the offsets whose bits are set in the mask got stored; gives how
        many these were. For a write to STATUS bit 0 decides."""
        return self._do(Act.CUT, mask).count

    def up(self) -> None:
        """Power comes back."""
        self._do(Act.UP, 0)

    @property
    def door(self) -> int:
        """The level of EVLS, the door's switch. It is set to 0 or 1, with power or without; all else raises Refused, 3.

        A rise starts the debounce if EVEN0 and OSCON are set and EVLIF is clear; a fall ends it. To set the level that is
        there does nothing."""
        return self._state[_EVLS]

    @door.setter
    def door(self, level):
        self._do(Act.EVLS, level)

    @property
    def drum(self) -> int:
        """The level of EVHS, the drum's sensor, set as `door` is.

        A rise counts if EVEN1 and OSCON are set and EVHIF and EVWDT clear; the last one sets EVHIF at once. With EVWDT set
        each edge zeroes the watchdog's count instead."""
        return self._state[_EVHS]

    @drum.setter
    def drum(self, level):
        self._do(Act.EVHS, level)

    # Time

    @property
    def now(self) -> int:
        """Whole ticks that have passed since the chip was made or loaded."""
        return self._now

    @property
    def spi_hz(self) -> typing.Optional[Fraction]:
        """The SPI clock in Hz; None: the bus takes no time."""
        return self._spi_hz

    @spi_hz.setter
    def spi_hz(self, hz):
        if hz is not None:
            hz = _exact(hz, 'spi_hz')
            if hz <= 0:
                raise ValueError('spi_hz is to be above 0, or None for a bus that takes no time')
        self._spi_hz = hz
        self._byte_time = None if hz is None else 8 * TICKS_PER_SECOND / hz

    def _clocks(self, bits):
        if self._spi_hz is not None:
            self._pass(self._byte_time if bits == 8 else self._byte_time * bits / 8)

    def _pass(self, time):
        """Lets a time pass, a fraction in ticks, over every stop."""
        since = self._now
        left = self._carry.add(time)
        while left:
            left -= self._do(Act.WAIT, min(left, WAIT_LIMIT), since).count

    def advance(self, seconds=None, *, ticks=None) -> typing.List[Event]:
        """Lets this time pass, all of it, and gives the events that came in it, one at its last tick among them.

        seconds: an int, float, Fraction, Decimal or timedelta, taken exactly. What is less than a tick is kept for the
        next time. ticks: an int. Either of the two."""
        if (seconds is None) == (ticks is None):
            raise ValueError('advance takes seconds, or ticks')
        time = Fraction(operator.index(ticks)) if seconds is None else _seconds(seconds) * TICKS_PER_SECOND
        if time < 0:
            raise ValueError('time does not go back: %r' % (ticks if seconds is None else seconds,))
        first = len(self.events)
        self._pass(time)
        return self.events[first:]

    # Frames

    def exchange(self, data, leftover=0) -> typing.List[typing.Optional[int]]:
        """A whole frame: CS falls, the bytes, CS rises. Gives what left SO with each byte, None where SO is off.

        leftover: bits of a further byte, 0 to 7, with which the frame is broken off; end() would give what left SO with
        them. Where a frame is open already it raises Refused, 1, and changes nothing."""
        data = _octets(data)
        if not 0 <= operator.index(leftover) <= 7:
            raise Refused(3, 'end', leftover)
        self.select()
        answers = [self.byte(value) for value in data]
        self.end(leftover)
        return answers

    def transfer(self, data, leftover=0, off=0xFF) -> bytes:
        """As exchange(), with a byte for each byte sent. Where SO is off it is `off`; a line with a pull-up reads FFh."""
        off = _octet(off, 'off')
        return bytes(off if answer is None else answer for answer in self.exchange(data, leftover))

    def read(self, address, n=1) -> bytes:
        """n bytes of the clock block by a READ frame: registers 00h to 1Fh, SRAM 20h to 5Fh."""
        if operator.index(n) < 0:
            raise ValueError('n is to be 0 or more, not %d' % n)
        return self.transfer([Code.READ, _octet(address, 'an address')] + [0] * n)[2:]

    def write(self, address, data) -> None:
        """Bytes into the clock block by a WRITE frame."""
        self.transfer(bytes([Code.WRITE, _octet(address, 'an address')]) + _octets(data))

    # What the chip holds, without a frame

    @property
    def part(self) -> Part:
        """Which part it is."""
        return Part(self._state[_PART])

    @property
    def irq(self) -> int:
        """The level of IRQ, 1 high."""
        return self._irq

    @property
    def wdo(self) -> int:
        """The level of WDO, 1 high."""
        return self._wdo

    @property
    def powered(self) -> bool:
        """Power is on."""
        return bool(self._state[_POWER])

    @property
    def selected(self) -> bool:
        """A frame is open."""
        return self._state[_STAGE] != 0

    @property
    def wip(self) -> int:
        """1 while a write cycle runs."""
        return int(self._state[_LEFT] > 0)

    @property
    def wel(self) -> int:
        """The write enable latch."""
        return self._state[_WEL]

    @property
    def status(self) -> Status:
        """STATUS, as SRREAD would answer it."""
        return Status(self.wip * Status.WIP | self.wel * Status.WEL | self._state[_BP] * Status.BP0)

    @property
    def registers(self) -> Registers:
        """The registers as stored at this moment. The bits that the chip makes when it is read (OSCON, LP, bit 6 of the
        alarms' hours) are not in it; read() has them."""
        return Registers(self._state[_REGISTERS])

    @property
    def sram(self) -> bytes:
        """The SRAM, 20h to 5Fh."""
        return bytes(self._state[_SRAM])

    @property
    def eeprom(self) -> bytes:
        """The EEPROM, as it is stored at this moment: 128 or 256 bytes."""
        return bytes(self._eeprom)

    @property
    def id(self) -> bytes:
        """The 16 bytes of the ID."""
        return bytes(self._id)

    def preset_eeprom(self, data, at=0) -> None:
        """Puts bytes into the EEPROM from an address on. No chip does that: it is for a test to begin with, and knows no
        enable, no protection and no time."""
        self._preset(self._eeprom, data, at)

    def preset_id(self, data, at=0) -> None:
        """The same for the ID: a part with a preprogrammed one begins so."""
        self._preset(self._id, data, at)

    @staticmethod
    def _preset(memory, data, at):
        data = _octets(data)
        if not 0 <= operator.index(at) <= len(memory) - len(data):
            raise ValueError('%d bytes from %d on do not fit into %d' % (len(data), at, len(memory)))
        memory[at:at + len(data)] = data

    # The saved form, the text of ./run --save and --load

    def to_text(self) -> str:
        """The chip as text."""
        text = ctypes.create_string_buffer(_ROOM)
        length = ctypes.c_uint64()
        refusal = self._lib.mcp795_save(*self._arrays, text, len(text), length)
        if refusal:
            raise Refused(refusal, 'save', None)
        return text.raw[:length.value].decode('ascii')

    @classmethod
    def from_text(cls, text, spi_hz=DEFAULT_SPI_HZ) -> Chip:
        """The chip of a text, str or bytes. A text that is no saved chip raises BadText with its first bad line. One that
        was saved before there were event inputs has 0 for all of theirs."""
        text = text.encode('utf-8', 'surrogatepass') if isinstance(text, str) else _octets(text)
        return cls._loaded(text, 'text', spi_hz)

    def save(self, target) -> None:
        """Saves the chip: into a file by its path, or into an object that is open for writing bytes.

        A file is replaced whole or not at all: the text is written into a new one beside it, which then takes its name.
        A directory or a device is not replaced. Time, events and spi_hz are not saved."""
        text = self.to_text().encode('ascii')
        if hasattr(target, 'write'):
            target.write(text)
        else:
            _replace(os.fsdecode(target), text)

    @classmethod
    def load(cls, source, spi_hz=DEFAULT_SPI_HZ) -> Chip:
        """The chip that was saved: in a file by its path, or from an object that is open for reading bytes. What is no
        saved chip raises BadText with its first bad line."""
        if hasattr(source, 'read'):
            name, text = getattr(source, 'name', 'text'), source.read()
            if not isinstance(text, bytes):
                raise TypeError('the file is to be open for bytes: mode rb')
        else:
            name = os.fsdecode(source)
            with open(name, 'rb') as file:
                text = file.read(_READ_LIMIT)
        return cls._loaded(text, name, spi_hz)

    @classmethod
    def _loaded(cls, text, name, spi_hz):
        library, line = _library(), ctypes.c_uint64()
        for size in 256, 128:
            chip = object.__new__(cls)
            chip._blank(library, size)
            refusal = library.mcp795_load(text, len(text), *chip._arrays, line)
            if not refusal:
                chip._start(spi_hz)
                return chip
            if refusal == 6:
                raise _other_state(library)
            if refusal == 8:
                break
        raise BadText(name, line.value, _shown(text, line.value))


def _shown(text, line):
    """The bad line, to be told."""
    lines = text.split(b'\n')
    if line > len(lines) or line == len(lines) and not lines[-1]:
        return 'the text ends before it'
    shown = ascii(lines[line - 1][:60].decode('latin-1'))
    return shown + ' without a newline' if line == len(lines) else shown


def _replace(path, text):
    """Puts a text into a file: a new one beside it is written and synced, and takes its name."""
    if os.path.exists(path):
        with open(path, 'r+b', buffering=0) as file:
            if not stat.S_ISREG(os.fstat(file.fileno()).st_mode):
                raise OSError(errno.EINVAL, os.strerror(errno.EINVAL), path)
    new, handle = _beside(path)
    try:
        with os.fdopen(handle, 'wb') as file:
            file.write(text)
            file.flush()
            os.fsync(handle)
        os.replace(new, path)
    except BaseException:
        os.unlink(new)
        raise


def _beside(path):
    """A new file PATH.new0, or with the next free digit."""
    for digit in range(10):
        new = '%s.new%d' % (path, digit)
        try:
            return new, os.open(new, os.O_WRONLY | os.O_CREAT | os.O_EXCL | os.O_CLOEXEC, 0o666)
        except FileExistsError:
            if digit == 9:
                raise


class SpiDev:
    """A chip as the SpiDev object of Linux's Python module spidev, for a driver that was written for it.

        spi = SpiDev(Chip('W20'))
        spi.max_speed_hz = 500000
        spi.xfer2([0x05, 0])

    Each call is one frame. max_speed_hz and xfer2's speed_hz set the time of a byte, unless the chip's spi_hz is None:
    then the bus takes no time, whatever the driver asks for. `off` is what is read where SO is off.
    """

    # The settings that the chip is wired for, the first of each at the beginning
    _WIRED = {
        'mode': (0, 3), 'bits_per_word': (8, 0), 'lsbfirst': (False,), 'cshigh': (False,), 'no_cs': (False,),
        'threewire': (False,), 'loop': (False,),
    }

    def __init__(self, chip, off=0xFF):
        self.chip = chip
        self.off = _octet(off, 'off')
        self._speed = DEFAULT_SPI_HZ if chip.spi_hz is None else int(chip.spi_hz)
        for name, values in self._WIRED.items():
            setattr(self, name, values[0])

    def _check(self, name, value):
        if value not in self._WIRED.get(name, (value,)):
            raise ValueError('the chip is not wired for %s=%r' % (name, value))

    def __setattr__(self, name, value):
        self._check(name, value)
        super().__setattr__(name, value)

    def open(self, bus, device) -> None:
        """Nothing: there is one chip, whatever the numbers."""

    def close(self) -> None:
        """Nothing."""

    def __enter__(self):
        return self

    def __exit__(self, *reason):
        self.close()

    @property
    def max_speed_hz(self) -> int:
        """The SPI clock that the driver asked for last."""
        return self._speed

    @max_speed_hz.setter
    def max_speed_hz(self, hz):
        if operator.index(hz) <= 0:
            raise ValueError('max_speed_hz is to be above 0')
        self._speed = hz
        if self.chip.spi_hz is not None:
            self.chip.spi_hz = hz

    def xfer2(self, values, speed_hz=0, delay_usec=0, bits_per_word=0):
        """A frame: the bytes out, and a list (for a tuple, a tuple) of the bytes in. The delay passes before CS rises."""
        self._check('bits_per_word', bits_per_word)
        if len(values) == 0:
            raise TypeError('there is no byte to send')
        usual = self.chip.spi_hz
        try:
            if speed_hz and usual is not None:
                self.chip.spi_hz = speed_hz
            answers = self._frame(_octets(values), Fraction(delay_usec, 1000000))
        finally:
            self.chip.spi_hz = usual
        return tuple(answers) if isinstance(values, tuple) else answers

    def _frame(self, data, delay):
        self.chip.select()
        answers = [self.chip.byte(value) for value in data]
        self.chip.advance(delay)
        self.chip.end()
        return [self.off if answer is None else answer for answer in answers]

    def writebytes(self, values) -> None:
        """A frame whose answers are not looked at."""
        self.xfer2(values)

    writebytes2 = writebytes

    def readbytes(self, n):
        """A frame of n zeros; as the chip knows no such instruction, SO stays off."""
        return self.xfer2([0] * n)


def _demo():
    """The worked example of README.md, frame by frame."""
    chip = Chip('W20')

    def frame(*data):
        answers = ' '.join('--' if a is None else '%02X' % a for a in chip.exchange(data))
        print('%-8s %-12s SO: %s' % (Code(data[0]).name, ' '.join('%02X' % b for b in data), answers))

    print(chip)
    frame(Code.EEWREN)
    frame(Code.EEWRITE, 0x10, 0x04, 0xD2)
    for event in chip.advance(seconds=0.01):
        print('%s is %d after %d ticks' % (event.line, event.level, event.after))
    frame(Code.EEREAD, 0x10, 0, 0)
    print(chip)


def main():
    parser = argparse.ArgumentParser(
        prog='mcp795.py', formatter_class=argparse.RawDescriptionHelpFormatter, description=__doc__,
        epilog='With no argument it writes two bytes into the EEPROM of a chip, reads them back and shows each frame.')
    parser.parse_args()
    try:
        _demo()
    except LibraryError as error:
        print('mcp795.py: %s' % error, file=sys.stderr)
        return 1
    return 0


if __name__ == '__main__':
    sys.exit(main())
