"""tools/mcp795.py, held to docs/RULES.md and README.md: ticks, bytes and numbers here are worked by hand from them."""
import copy
import io
import os
import pathlib
import re
import shutil
import subprocess
import sys
import tempfile
import unittest
from datetime import timedelta
from decimal import Decimal
from fractions import Fraction
from unittest import mock

TOP = pathlib.Path(__file__).resolve().parents[2]
FRONT_END = TOP / 'tools' / 'mcp795.py'
PROGRAM = TOP / 'target' / 'bin' / 'mcp795'
sys.path.insert(0, str(FRONT_END.parent))

import mcp795
from mcp795 import Act, Answer, BadText, Bit, Chip, Code, Event, LibraryError, Part, Refused, Register, SpiDev, Status

SECOND = 32768
STARTUP = 32        # K3
CYCLE = 164         # F28


def still(part=Part.W20):
    """A chip whose bus takes no time."""
    return Chip(part, spi_hz=None)


def enable(chip):
    chip.transfer([Code.EEWREN])


def begin_write(chip, address=0, data=(0x12,)):
    """A page write that is carried; its cycle has just begun."""
    enable(chip)
    chip.transfer([Code.EEWRITE, address, *data])


def evening():
    """README.md's station in the evening: two bytes on their way to 16, 100 ticks gone of the cycle."""
    chip = still()
    begin_write(chip, 16, (4, 210))
    chip.wait(100)
    return chip


class Case(unittest.TestCase):
    def unchanged(self, chip):
        """A context after which the chip is as it was, its time and events too."""
        case, before = self, chip.copy()

        class Unchanged:
            def __enter__(self):
                return chip

            def __exit__(self, *reason):
                case.assertEqual(chip, before)
                case.assertEqual((chip.now, chip.events, chip.irq, chip.wdo),
                                 (before.now, before.events, before.irq, before.wdo))
        return Unchanged()

    def refused(self, number, chip, call):
        with self.unchanged(chip), self.assertRaises(Refused) as caught:
            call(chip)
        self.assertEqual(caught.exception.number, number)
        return caught.exception


class Making(Case):
    def test_parts(self):
        for number, name, size in (1, 'W10', 128), (2, 'W20', 256), (3, 'B10', 128), (4, 'B20', 256):
            for part in number, Part(number), name, name.lower(), 'MCP795' + name, name[:2], name[:2] + 'K':
                chip = Chip(part)
                self.assertEqual((chip.part, chip.part.name, len(chip.eeprom)), (number, name, size))

    def test_the_default_is_part_2(self):
        self.assertEqual(Chip().part, 2)

    def test_fresh(self):
        for part in Part:
            chip = Chip(part)
            for register, value in chip.registers.items():
                self.assertEqual(value, register in (Register.DAY, Register.DATE, Register.MONTH), register)
            self.assertEqual(chip.sram, bytes(64))
            self.assertEqual(set(chip.eeprom + chip.id), {0xFF})
            self.assertEqual(len(chip.id), 16)
            self.assertEqual(chip.status, 0)
            self.assertTrue(chip.powered)
            self.assertFalse(chip.selected)
            self.assertEqual((chip.irq, chip.wdo, chip.wip, chip.wel, chip.now, chip.events), (1, 1, 0, 0, 0, []))
            self.assertEqual((chip.door, chip.drum), (0, 0))

    def test_no_such_part(self):
        for part in 0, 5, -1, 2**64 + 2:
            with self.assertRaises(Refused) as caught:
                Chip(part)
            self.assertEqual((caught.exception.number, caught.exception.act, caught.exception.argument), (3, 'part', part))
            self.assertIn('part %d: refused by 3' % part, str(caught.exception))

    def test_no_such_name(self):
        for name in '', 'W', 'W3', 'W21', 'MCP795', '2':
            with self.assertRaisesRegex(ValueError, 'W10, W20, B10, B20'):
                Chip(name)

    def test_what_is_no_part_at_all(self):
        for part in None, 2.0, [2]:
            with self.assertRaises(TypeError):
                Chip(part)

    def test_repr(self):
        self.assertEqual(repr(Chip('B10')),
                         '<Chip B10 at 0 ticks: power=1 selected=0 irq=1 wdo=1 wip=0 wel=0 door=0 drum=0>')
        chip = evening()
        chip.drum = 1
        self.assertEqual(repr(chip), '<Chip W20 at 100 ticks: power=1 selected=0 irq=1 wdo=1 wip=1 wel=1 door=0 drum=1>')


class Copies(Case):
    def test_equal_until_one_moves(self):
        chip = evening()
        for twin in chip.copy(), copy.copy(chip), copy.deepcopy(chip):
            self.assertEqual(twin, chip)
            self.assertEqual((twin.now, twin.events, twin.spi_hz), (chip.now, chip.events, chip.spi_hz))
            twin.wait(64)
            self.assertNotEqual(twin, chip)
            self.assertEqual((chip.now, chip.wip, chip.eeprom[16]), (100, 1, 0xFF))
            self.assertEqual((twin.now, twin.wip, twin.eeprom[16]), (164, 0, 4))
            self.assertEqual((len(chip.events), len(twin.events)), (1, 2))

    def test_the_copy_stays_when_the_chip_moves(self):
        chip = evening()
        twin = chip.copy()
        chip.cut(0xFF)
        self.assertTrue(twin.powered)
        self.assertEqual(twin.wait(200), 64)
        self.assertEqual(twin.eeprom[16:18], bytes([4, 210]))

    def test_the_rest_of_a_tick_is_copied(self):
        chip = still()
        chip.advance(Fraction(3, 4 * SECOND))
        twin = chip.copy()
        twin.advance(Fraction(1, 4 * SECOND))
        chip.advance(Fraction(1, 2 * SECOND))
        self.assertEqual((twin.now, chip.now), (1, 1))
        chip.advance(Fraction(3, 4 * SECOND))
        self.assertEqual((twin.now, chip.now), (1, 2))

    def test_what_equality_compares(self):
        chip, later = still(), still()
        later.wait(5)       # W, ST clear: a tick moves nothing
        self.assertEqual(chip, later)
        later.preset_id([0])
        self.assertNotEqual(chip, later)
        self.assertNotEqual(Chip(1), Chip(3))
        self.assertNotEqual(Chip(1), Chip(2))
        self.assertNotEqual(chip, 2)
        with self.assertRaises(TypeError):
            hash(chip)

    def test_a_subclass_stays_one(self):
        class Board(Chip):
            pass
        board = Board()
        board.name = 'left'
        self.assertIsInstance(board.copy(), Board)
        self.assertEqual(board.copy().name, 'left')
        self.assertIsInstance(Board.from_text(board.to_text()), Board)


class WholeCase(Case):
    """T10, T11."""

    def test_by_acts(self):
        chip = still()
        self.assertIsNone(chip.select())
        self.assertIsNone(chip.byte(6))
        self.assertIsNone(chip.end(0))
        chip.select()
        self.assertEqual([chip.byte(b) for b in (2, 7, 18, 52)], [None] * 4)
        self.assertIsNone(chip.end())
        self.assertEqual(chip.wait(200), 164)
        chip.select()
        self.assertEqual([chip.byte(b) for b in (3, 0, 0)], [None, None, 52])
        chip.end()
        self.assertEqual((chip.eeprom[0], chip.eeprom[7], chip.now), (52, 18, 164))

    def test_by_frames(self):
        for spi_hz in None, 1000000, 10000000:
            chip = Chip(2, spi_hz)
            chip.transfer([6])
            chip.transfer(bytes([2, 7, 18, 52]))
            self.assertEqual(chip.wait(200), 164)
            self.assertEqual(chip.transfer([3, 0, 0]), bytes([0xFF, 0xFF, 52]))

    def test_without_the_enable(self):
        chip = still()
        chip.transfer([2, 7, 18, 52])
        self.assertEqual(chip.wait(200), 200)
        self.assertEqual(chip.eeprom, still().eeprom)


class Acts(Case):
    def test_act_answers(self):
        chip = still()
        self.assertEqual(chip.act(Act.SELECT, 0), Answer(0, False, 0, 0, 1, 1))
        self.assertEqual(chip.act(1, Code.SRREAD), Answer(0, False, 0, 0, 1, 1))
        self.assertEqual(chip.act(Act.BYTE, 0), Answer(0, True, 0, 0, 1, 1))
        self.assertEqual(chip.act(Act.END, 0), Answer(0, False, 0, 0, 1, 1))
        self.assertEqual(chip.act(Act.WAIT, 7), Answer(0, False, 0, 7, 1, 1))
        self.assertEqual(chip.act(Act.CUT, 0), Answer(0, False, 0, 0, 1, 1))
        self.assertEqual(chip.act(Act.UP, 0), Answer(0, False, 0, 0, 1, 1))
        self.assertEqual(chip.act(Act.EVLS, 1), Answer(0, False, 0, 0, 1, 1))
        self.assertEqual(chip.act(7, 1), Answer(0, False, 0, 0, 1, 1))
        self.assertEqual((chip.door, chip.drum), (1, 1))
        self.assertEqual(chip.now, 7)

    def test_the_numbers_of_the_acts(self):
        self.assertEqual([act.name for act in Act], ['SELECT', 'BYTE', 'END', 'WAIT', 'CUT', 'UP', 'EVLS', 'EVHS'])
        self.assertEqual(list(Act), list(range(8)))

    def test_act_takes_no_bus_time(self):
        chip = Chip(spi_hz=1)
        chip.act(Act.SELECT, 0)
        chip.act(Act.BYTE, 6)
        chip.act(Act.END, 7)
        self.assertEqual(chip.now, 0)

    def test_selected(self):
        chip = still()
        chip.select()
        self.assertTrue(chip.selected)
        chip.end()
        self.assertFalse(chip.selected)

    def test_bits_of_an_end(self):
        chip = evening()
        chip.wait(64)
        for frame, bits, out in (([3, 17], 5, 26), ([3, 16], 5, 0), ([3], 5, None), ([3, 17], 0, None), ([3, 17], 7, 105)):
            chip.select()
            for value in frame:
                chip.byte(value)
            self.assertEqual(chip.end(bits), out)

    def test_a_wait_stops_and_says_when(self):
        chip = still()
        begin_write(chip)
        self.assertEqual(chip.wait(0), 0)
        self.assertEqual(chip.wait(163), 163)
        self.assertEqual(chip.wip, 1)
        self.assertEqual(chip.wait(16777216), 1)
        self.assertEqual((chip.wip, chip.now), (0, 164))

    def test_the_longest_wait(self):
        chip = still()
        self.assertEqual(chip.wait(16777216), 16777216)

    def test_a_cut_counts(self):
        chip = still()
        begin_write(chip, 8, (1, 2, 3))
        self.assertEqual(chip.cut(0b11111101), 2)
        self.assertEqual(chip.eeprom[8:16], bytes([1, 255, 3] + [255] * 5))
        self.assertFalse(chip.powered)
        chip.up()
        self.assertTrue(chip.powered)
        self.assertEqual((chip.wip, chip.wel), (0, 0))

    def test_a_cut_of_a_status_write(self):
        for mask, stored, status in (0xFE, 0, 0), (0x01, 1, Status.BP0):
            chip = still()
            enable(chip)
            chip.transfer([Code.SRWRITE, Status.BP0])
            self.assertEqual(chip.cut(mask), stored)
            chip.up()
            self.assertEqual(chip.status, status)


class Refusals(Case):
    def test_1_select_while_selected(self):
        chip = still()
        chip.select()
        error = self.refused(1, chip, Chip.select)
        self.assertEqual((error.act, error.argument), ('select', 0))
        self.assertEqual(str(error), 'select: refused by 1: select, and the chip is selected already')

    def test_2_not_selected(self):
        error = self.refused(2, still(), lambda chip: chip.byte(6))
        self.assertEqual((error.act, error.argument, error.words), ('byte', 6, 'byte or end, and the chip is not selected'))
        self.assertEqual(str(error), 'byte 0x06: refused by 2: byte or end, and the chip is not selected')
        error = self.refused(2, still(), Chip.end)
        self.assertEqual(str(error), 'end 0: refused by 2: byte or end, and the chip is not selected')

    def test_3_an_argument(self):
        chip = still()
        chip.select()
        for value in 256, -1, 2**64, 2**64 + 6:
            self.assertEqual(self.refused(3, chip, lambda c: c.byte(value)).argument, value)
            self.refused(3, chip, lambda c: c.cut(value))
        for bits in 8, -1, 2**64, 2**64 + 1:
            self.refused(3, chip, lambda c: c.end(bits))
        for ticks in 16777217, -1, 2**64, 2**64 + 1:
            self.refused(3, chip, lambda c: c.wait(ticks))
        self.assertEqual(str(self.refused(3, chip, lambda c: c.byte(256))),
                         'byte 0x100: refused by 3: the argument is not one that the act takes, or there is no such part')
        self.assertIn('byte -1: refused by 3', str(self.refused(3, chip, lambda c: c.byte(-1))))
        self.assertIn('cut 0x100: refused by 3', str(self.refused(3, chip, lambda c: c.cut(256))))
        self.assertIn('wait 16777217: refused by 3', str(self.refused(3, chip, lambda c: c.wait(16777217))))

    def test_5_power(self):
        chip = still()
        self.assertIn('up: refused by 5: power is off, and', str(self.refused(5, chip, Chip.up)))
        chip.cut()
        for call in Chip.select, lambda c: c.byte(0), Chip.end, Chip.cut:
            self.refused(5, chip, call)
        self.refused(5, chip, lambda c: c.transfer([5, 0]))
        self.refused(5, chip, lambda c: c.read(0))
        self.refused(5, chip, lambda c: c.write(0, [1]))
        self.assertEqual(chip.wait(10), 10)

    def test_what_is_no_chip(self):
        chip = still()
        chip.write(Register.CONTROL, [Bit.ALM0])
        chip.write(Register.ALARM_0_DAY, [Bit.ALM0IF])
        for place, byte, number in ((mcp795._LEFT, 165, 6), (mcp795._POWER, 2, 6), (mcp795._PART, 0, 3),
                                    (mcp795._PART, 1, 4), (mcp795._EVLS, 2, 6), (mcp795._EVHS, 2, 6), (135, 1, 6), (136, 1, 6), (139, 1, 6)):
            spoiled = chip.copy()
            spoiled._state[place] = byte
            self.assertEqual(spoiled.act(Act.WAIT, 0), Answer(number, False, 0, 0, 1, 1))
            with self.assertRaises(Refused) as caught:
                spoiled.to_text()
            self.assertEqual(caught.exception.number, number)
        self.assertEqual(chip.act(Act.WAIT, 0), Answer(0, False, 0, 0, 0, 1))

    def test_71_to_75_are_a_tapes(self):
        """No act is refused by them. Their words, for who reads the answers of a tape, are those of the C header."""
        header = (TOP / 'include' / 'mcp795.h').read_text()
        words = {int(number): text for number, text in re.findall(r'case (\d+): return "(.*)";', header)}
        self.assertEqual(sorted(words), [71, 72, 73, 74, 75])
        for number in range(100):
            known = number in (1, 2, 3, 4, 5, 6, 8, *words)
            self.assertEqual(Refused(number, 'line', None).words != 'no row of the table', known)
        for number, text in words.items():
            self.assertEqual(Refused(number, 'line', None).words, text)

    def test_act_does_not_raise(self):
        chip = still()
        with self.unchanged(chip):
            for act, number, refusal in (
                    (Act.SELECT, 1, 3), (Act.BYTE, 0, 2), (Act.BYTE, 256, 3), (Act.END, 0, 2), (Act.END, 8, 3),
                    (Act.WAIT, 16777217, 3), (Act.CUT, 256, 3), (Act.UP, 0, 5), (Act.UP, 1, 3),
                    (Act.EVLS, 2, 3), (Act.EVHS, 2, 3), (Act.EVLS, 2**64 + 1, 3), (Act.EVHS, -1, 3),
                    (8, 0, 3), (-1, 0, 3), (2**64, 0, 3), (2**64 + 3, 5, 3), (Act.WAIT, 2**64 + 5, 3), (Act.WAIT, -1, 3)):
                self.assertEqual(chip.act(act, number), Answer(refusal, False, 0, 0, 1, 1), (act, number))

    def test_the_first_row_answers(self):
        chip = still()
        chip.cut()
        for act, number, refusal in (Act.BYTE, 256, 3), (Act.BYTE, 0, 5), (Act.END, 8, 3), (Act.SELECT, 1, 3):
            self.assertEqual(chip.act(act, number).refusal, refusal)

    def test_levels_of_a_refused_act(self):
        chip = still()
        chip.write(Register.CONTROL, [Bit.ALM0 | Bit.ALM1])
        chip.write(Register.ALARM_0_DAY, [Bit.ALM0IF])
        chip.write(Register.ALARM_1_DAY, [Bit.ALM1IF | Bit.ALM1PIN])
        self.assertEqual(chip.act(Act.BYTE, 0), Answer(2, False, 0, 0, 0, 0))

    def test_what_is_no_number(self):
        chip = still()
        with self.unchanged(chip):
            for call in (lambda: chip.byte(1.0), lambda: chip.byte(None), lambda: chip.wait('1'), lambda: chip.cut(b'1'),
                         lambda: chip.end(0.0), lambda: chip.act('wait', 1), lambda: chip.act(Act.WAIT, None)):
                self.assertRaises(TypeError, call)

    def test_a_refusal_takes_no_bus_time(self):
        self.refused(2, Chip(spi_hz=1), lambda chip: chip.byte(0))


class Frames(Case):
    def test_off(self):
        chip = still()
        self.assertEqual(chip.transfer([Code.SRREAD, 0]), bytes([0xFF, 0]))
        self.assertEqual(chip.transfer([Code.SRREAD, 0], off=0), bytes(2))
        self.assertEqual(chip.transfer([0x00, 0x00], off=0x5A), bytes([0x5A, 0x5A]))
        self.assertEqual(chip.exchange([Code.SRREAD, 0]), [None, 0])
        self.assertEqual(chip.exchange([Code.EEREAD, 0, 0]), [None, None, 0xFF])
        self.assertFalse(chip.selected)

    def test_any_bytes(self):
        for data in b'\x05\0', bytearray(b'\x05\0'), memoryview(b'\x05\0'), [5, 0], (5, 0), iter([5, 0]):
            self.assertEqual(still().exchange(data), [None, 0])

    def test_an_empty_frame(self):
        chip = still()
        with self.unchanged(chip):
            self.assertEqual(chip.transfer(b''), b'')

    def test_leftover_bits_void_a_write(self):
        chip = still()
        enable(chip)
        chip.transfer([Code.EEWRITE, 0, 1], leftover=7)
        self.assertEqual((chip.wip, chip.wel), (0, 1))

    def test_a_frame_is_open(self):
        chip = Chip()
        chip.select()
        chip.byte(Code.WRITE)
        for call in (lambda c: c.transfer([5, 0]), lambda c: c.exchange([5, 0]), lambda c: c.read(0),
                     lambda c: c.write(0, b'')):
            self.refused(1, chip, call)

    def test_wrong_leftover(self):
        for leftover in 8, -1, 2**64:
            error = self.refused(3, still(), lambda chip: chip.transfer([5, 0], leftover))
            self.assertEqual((error.act, error.argument), ('end', leftover))

    def test_what_is_no_data(self):
        chip = still()
        with self.unchanged(chip):
            for data in 5, 'ab', None, [1.5]:
                self.assertRaises(TypeError, chip.transfer, data)
                self.assertRaises(TypeError, chip.exchange, data)
                self.assertRaises(TypeError, chip.write, 0, data)
            for data in [256], [-1]:
                self.assertRaises(ValueError, chip.transfer, data)
            for off in 256, -1:
                self.assertRaises(ValueError, chip.transfer, [Code.EEWREN], off=off)
            for address in 256, -1:
                self.assertRaises(ValueError, chip.read, address)
                self.assertRaises(ValueError, chip.write, address, [0])
            self.assertRaises(ValueError, chip.read, 0, -1)
            self.assertRaises(TypeError, chip.read, 0, 1.0)

    def test_read_and_write(self):
        chip = still()
        chip.write(0x20, bytes(range(64)))
        self.assertEqual(chip.read(0x20, 64), bytes(range(64)))
        self.assertEqual(chip.sram, bytes(range(64)))
        self.assertEqual(chip.read(0x5F, 2), bytes([63, 0]))        # E12: on to 20h
        self.assertEqual(chip.read(0x60, 2), bytes(2))
        self.assertEqual(chip.read(0x20, 0), b'')
        self.assertEqual(chip.read(0x20), b'\0')
        chip.write(Register.MINUTES, [0xFF])
        self.assertEqual(chip.read(Register.MINUTES), b'\x7f')      # F13


class Peeks(Case):
    def test_registers(self):
        chip = still()
        chip.write(Register.SECONDS, [0x59, 0x58])
        stored = chip.registers
        self.assertEqual([stored['SECONDS'], stored[1], stored[Register.SECONDS]], [0x59] * 3)
        self.assertEqual(stored['MINUTES'], 0x58)
        self.assertEqual(len(stored), 32)
        self.assertEqual(list(stored), list(Register))
        self.assertEqual([int(register) for register in Register], list(range(32)))
        self.assertIn('SECONDS=0x59', repr(stored))
        chip.write(Register.SECONDS, [0])
        self.assertEqual(stored['SECONDS'], 0x59)
        self.assertNotEqual(chip.registers, stored)
        self.assertEqual(chip.registers, chip.copy().registers)

    def test_no_such_register(self):
        stored = still().registers
        for key in -1, 32, 'NONE', 'seconds', None, []:
            with self.assertRaises(KeyError):
                stored[key]
        self.assertNotIn('NONE', stored)
        self.assertIn(0x1F, stored)

    def test_bits_made_when_read(self):
        chip = still('B20')
        chip.wait(STARTUP)
        self.assertEqual(chip.read(Register.DAY)[0], Bit.OSCON | 1)
        self.assertEqual(chip.registers['DAY'], 1)
        self.assertEqual(chip.read(Register.MONTH)[0], Bit.LP | 1)      # K13: 00 is a leap year
        self.assertEqual(chip.registers['MONTH'], 1)
        chip.write(Register.HOURS, [Bit.TWELVE | 0x12])
        self.assertEqual(chip.read(Register.ALARM_0_HOURS)[0], Bit.TWELVE)
        self.assertEqual(chip.registers['ALARM_0_HOURS'], 0)

    def test_peeks_take_no_time(self):
        chip = Chip(spi_hz=1)
        with self.unchanged(chip):
            chip.registers, chip.sram, chip.eeprom, chip.id, chip.status, chip.irq, chip.wdo, chip.to_text()

    def test_status(self):
        chip = still()
        enable(chip)
        self.assertEqual((chip.status, chip.wel), (Status.WEL, 1))
        chip.transfer([Code.SRWRITE, 0x0C])
        self.assertEqual(chip.status, Status.WIP | Status.WEL)
        self.assertEqual(chip.transfer([Code.SRREAD, 0])[1], chip.status)
        chip.wait(CYCLE)
        self.assertEqual(chip.status, Status.BP0 | Status.BP1)
        self.assertEqual(chip.transfer([Code.SRREAD, 0])[1], chip.status)

    def test_read_only(self):
        chip = still()
        for name in ('irq', 'wdo', 'powered', 'selected', 'wip', 'wel', 'status', 'now', 'eeprom', 'id', 'sram', 'registers',
                     'part'):
            with self.assertRaises(AttributeError):
                setattr(chip, name, 0)

    def test_preset(self):
        chip = still('W10')
        chip.preset_eeprom(b'\x01\x02', 0x7E)
        chip.preset_id(range(16))
        self.assertEqual(chip.eeprom, b'\xff' * 126 + b'\x01\x02')
        self.assertEqual(chip.transfer([Code.EEREAD, 0x7E, 0, 0])[2:], b'\x01\x02')
        self.assertEqual(chip.transfer([Code.IDREAD, 0] + [0] * 16)[2:], bytes(range(16)))
        chip.preset_eeprom(b'', 128)

    def test_preset_that_does_not_fit(self):
        chip = still('W10')
        with self.unchanged(chip):
            for data, at in (bytes(129), 0), (b'ab', 127), (b'a', -1), (b'a', 128):
                self.assertRaises(ValueError, chip.preset_eeprom, data, at)
            self.assertRaises(ValueError, chip.preset_id, bytes(17))
            self.assertRaises(TypeError, chip.preset_id, 16)

    def test_codes_and_bits(self):
        self.assertEqual({code.name: int(code) for code in Code}, dict(
            SRWRITE=1, EEWRITE=2, EEREAD=3, EEWRDI=4, SRREAD=5, EEWREN=6, WRITE=0x12, READ=0x13, UNLOCK=0x14, IDWRITE=0x32,
            IDREAD=0x33, CLRWDT=0x44, CLRRAM=0x54))
        self.assertEqual((Bit.ST, Bit.CT, Bit.VBATEN, Bit.VBAT, Bit.OSCON, Bit.LP), (0x80, 0x80, 8, 0x10, 0x20, 0x20))
        self.assertEqual((Bit.ALM0, Bit.ALM1), (0x10, 0x20))
        self.assertEqual((Bit.WDTEN, Bit.WDTIF, Bit.WDDEL, Bit.WDTPLS), (0x80, 0x40, 0x20, 0x10))
        self.assertEqual((Bit.ALM0PIN, Bit.ALM0IF, Bit.ALM1PIN, Bit.ALM1IF), (0x80, 0x08, 0x80, 0x08))
        self.assertEqual((Bit.EVHIF, Bit.EVLIF, Bit.EVEN1, Bit.EVEN0), (0x80, 0x40, 0x20, 0x10))
        self.assertEqual((Bit.EVWDT, Bit.EVLDB, Bit.EVHS1, Bit.EVHS0), (0x08, 0x04, 0x02, 0x01))


class Events(Case):
    def test_an_alarm(self):
        chip = still()
        chip.write(Register.ALARM_0_SECONDS, [0x05])
        chip.write(Register.CONTROL, [Bit.ALM0])
        chip.write(Register.SECONDS, [Bit.ST])
        chip.wait(1000)
        at = STARTUP + 5 * SECOND
        self.assertEqual(chip.advance(seconds=10), [Event(at - 1000, at, 'IRQ', 0, 1, 0)])
        self.assertEqual((chip.irq, chip.now), (0, 1000 + 10 * SECOND))
        chip.write(Register.ALARM_0_DAY, [0])
        self.assertEqual(chip.irq, 1)
        self.assertEqual(chip.events[1:], [Event(0, chip.now, 'IRQ', 1, 1, 0)])

    def test_an_alarm_on_wdo(self):
        chip = still()
        chip.write(Register.ALARM_1_HUNDREDTHS, [0x01])
        chip.write(Register.ALARM_1_DAY, [Bit.ALM1PIN | Bit.ALM1C2 | Bit.ALM1C0])
        chip.write(Register.CONTROL, [Bit.ALM1])
        chip.write(Register.SECONDS, [Bit.ST])
        self.assertEqual(chip.advance(ticks=1000), [Event(360, 360, 'WDO', 1, 0, 0)])       # E10: 328 counted ticks

    def test_a_watchdog(self):
        for pulse, width in (0, 4), (Bit.WDTPLS, 4096):
            chip = still()
            chip.write(Register.WATCHDOG, [Bit.WDTEN | pulse | 1])
            chip.write(Register.SECONDS, [Bit.ST])
            at = STARTUP + 512
            self.assertEqual(chip.advance(seconds=1), [
                Event(at, at, 'WDO', 1, 0, 0), Event(at + width, at + width, 'WDO', 1, 1, 0)])
            self.assertEqual([event.level for event in chip.events], [0, 1])

    def test_a_change_at_the_last_tick(self):
        chip = still()
        begin_write(chip)
        self.assertEqual(chip.advance(ticks=163), [])
        self.assertEqual(chip.advance(ticks=1), [Event(1, 164, 'WIP', 1, 1, 0)])

    def three_at_once(self):
        """Tick 360 ends a hundredth (328 counted ticks), a cycle begun at 196, a watchdog of 32 ticks written at 328."""
        chip = still()
        chip.write(Register.ALARM_1_HUNDREDTHS, [0x01])
        chip.write(Register.ALARM_1_DAY, [Bit.ALM1C2 | Bit.ALM1C0])
        chip.write(Register.CONTROL, [Bit.ALM1])
        chip.write(Register.SECONDS, [Bit.ST])
        chip.advance(ticks=196)
        begin_write(chip)
        chip.advance(ticks=132)
        chip.write(Register.WATCHDOG, [Bit.WDTEN])
        return chip

    def test_three_lines_in_one_tick(self):
        chip = self.three_at_once()
        self.assertEqual(chip.advance(ticks=32), [
            Event(32, 360, 'IRQ', 0, 0, 0), Event(32, 360, 'WDO', 0, 0, 0), Event(32, 360, 'WIP', 0, 0, 0)])

    def test_advance_goes_on(self):
        chip = self.three_at_once()
        self.assertEqual([(event.after, event.line, event.level) for event in chip.advance(ticks=100)],
                         [(32, 'IRQ', 0), (32, 'WDO', 0), (32, 'WIP', 0), (36, 'WDO', 1)])
        self.assertEqual(chip.now, 428)

    def test_every_change_is_kept(self):
        chip = still()
        begin_write(chip)
        chip.wait(200)
        self.assertEqual(chip.events, [Event(0, 0, 'WIP', 1, 1, 1), Event(164, 164, 'WIP', 1, 1, 0)])
        begin_write(chip)
        chip.wait(10)
        chip.events.clear()
        chip.cut()
        self.assertEqual(chip.events, [Event(0, 174, 'WIP', 1, 1, 0)])

    def test_a_b_part_runs_before_its_clock_does(self):
        chip = still('B10')
        chip.write(Register.ALARM_1_HUNDREDTHS, [0x01])
        chip.write(Register.ALARM_1_DAY, [Bit.ALM1C2 | Bit.ALM1C0])
        chip.write(Register.CONTROL, [Bit.ALM1])
        self.assertEqual(chip.advance(ticks=1000), [])
        chip.write(Register.SECONDS, [Bit.CT])
        self.assertEqual(chip.advance(ticks=1000), [Event(328, 1328, 'IRQ', 0, 1, 0)])

    def test_an_alarm_on_the_battery(self):
        for day, events in (0, []), (Bit.VBATEN, [Event(STARTUP + SECOND, STARTUP + SECOND, 'IRQ', 0, 1, 0)]):
            chip = still()
            chip.write(Register.ALARM_0_SECONDS, [0x01])
            chip.write(Register.CONTROL, [Bit.ALM0])
            chip.write(Register.DAY, [day | 1])
            chip.write(Register.SECONDS, [Bit.ST])
            chip.cut()
            self.assertEqual(chip.advance(seconds=2), events)
            self.assertEqual(chip.now, 2 * SECOND)

    def test_power_loss_lets_go_of_a_line(self):
        chip = still()
        chip.write(Register.CONTROL, [Bit.ALM0])
        chip.write(Register.ALARM_0_DAY, [Bit.ALM0IF])
        self.assertEqual(chip.irq, 0)
        chip.cut()      # VBATEN is clear: 08h is as fresh
        self.assertEqual(chip.irq, 1)
        self.assertEqual([event.level for event in chip.events], [0, 1])

    def test_how_long_the_drum_stood_still(self):
        chip = still()
        chip.write(0, [0, Bit.ST, 0x58, 0x23, Bit.VBATEN | 3, 0x14, 0x05, 0x26])
        chip.wait(STARTUP)
        chip.cut()
        chip.advance(seconds=210)
        chip.up()
        self.assertEqual(chip.read(Register.POWER_DOWN_MINUTES, 8), bytes([0x58, 0x23, 0x14, 0x65, 0x01, 0x00, 0x15, 0x85]))

    def test_longer_than_a_wait(self):
        chip = still()
        self.assertEqual(chip.advance(ticks=2 * 16777216 + 5), [])
        self.assertEqual(chip.now, 33554437)


class Inputs(Case):
    """The door's switch on EVLS and the drum's sensor on EVHS: V1 to V13."""

    @staticmethod
    def watching(events, part='W20'):
        """A chip whose oscillator is on, with this byte in 0Bh."""
        chip = still(part)
        chip.write(Register.SECONDS, [Bit.ST])
        chip.wait(STARTUP)
        chip.write(Register.EVENT_DETECT, [events])
        return chip

    @staticmethod
    def rises(chip, count):
        for _ in range(count):
            chip.drum = 0
            chip.drum = 1

    def test_levels(self):
        for chip in still(), Chip('B10', spi_hz=1):
            for level in 1, 1, 0, True, False:
                chip.door = level
                self.assertEqual((chip.door, chip.drum), (level, 0))
                chip.drum = level
                self.assertEqual((chip.door, chip.drum), (level, level))
                chip.drum = 0
            self.assertEqual((chip.now, chip.events), (0, []))

    def test_levels_in_a_frame_and_without_power(self):
        chip = still()
        chip.select()
        chip.byte(Code.SRREAD)
        chip.door = chip.drum = 1
        self.assertEqual(chip.byte(0), 0)
        chip.cut()
        self.assertEqual((chip.door, chip.drum), (1, 1))
        chip.door = 0
        self.assertEqual((chip.door, chip.drum), (0, 1))
        chip.up()
        self.assertEqual((chip.door, chip.drum), (0, 1))

    def test_what_is_no_level(self):
        chip = still()
        chip.door = 1
        for level in 2, -1, 255, 2**64, 2**64 + 1:
            error = self.refused(3, chip, lambda c: setattr(c, 'door', level))
            self.assertEqual((error.act, error.argument), ('evls', level))
            self.assertEqual(str(error), 'evls %d: refused by 3: the argument is not one that the act takes, or there is no '
                             'such part' % level)
            error = self.refused(3, chip, lambda c: setattr(c, 'drum', level))
            self.assertEqual((error.act, error.argument), ('evhs', level))
        with self.unchanged(chip):
            for level in 1.0, '1', None, b'1':
                self.assertRaises(TypeError, setattr, chip, 'door', level)
                self.assertRaises(TypeError, setattr, chip, 'drum', level)
        spoiled = chip.copy()
        spoiled._state[mcp795._LEFT] = 165
        with self.assertRaises(Refused) as caught:
            spoiled.door = 0
        self.assertEqual(str(caught.exception), "evls 0: refused by 6: the chip's record is out of range")

    def test_a_door_that_bounces(self):
        for setting, ticks in (0, 1024), (Bit.EVLDB, 16384):
            chip = self.watching(Bit.EVEN0 | setting)
            for held in 1, 300, ticks - 1:
                chip.door = 1
                self.assertEqual(chip.advance(ticks=held), [])
                chip.door = 0
            self.assertEqual(chip.advance(seconds=1), [])
            chip.door = 1
            chip.wait(ticks - 1)
            chip.door = 1       # no edge
            self.assertEqual((chip.irq, chip.registers['EVENT_DETECT']), (1, Bit.EVEN0 | setting))
            self.assertEqual(chip.wait(1000), 1)
            self.assertEqual((chip.irq, chip.read(Register.EVENT_DETECT)[0]), (0, Bit.EVLIF | Bit.EVEN0 | setting))
            self.assertEqual(chip.events, [
                Event(1, chip.now, 'IRQ', 0, 1, 0, 0, 1), Event(1, chip.now, 'EVLIF', 0, 1, 0, 0, 1)])
            self.assertEqual([event.level for event in chip.events], [0, 1])
            chip.write(Register.EVENT_DETECT, [Bit.EVEN0 | setting])
            self.assertEqual((chip.irq, chip.door), (1, 1))
            self.assertEqual([(event.line, event.level) for event in chip.events[2:]], [('IRQ', 1), ('EVLIF', 0)])
            self.assertEqual(chip.advance(seconds=1), [])

    def test_a_drum(self):
        for code, number in enumerate((1, 4, 16, 32)):
            chip = self.watching(Bit.EVEN1 | code)
            self.rises(chip, number - 1)
            self.assertEqual(chip.wait(8192), 8192)
            late = chip.copy()
            self.assertEqual(chip.irq, 1)
            self.rises(chip, 1)
            self.assertEqual((chip.irq, chip.registers['EVENT_DETECT']), (0, Bit.EVHIF | Bit.EVEN1 | code))
            self.assertEqual(chip.events, [
                Event(0, chip.now, 'IRQ', 0, 1, 0, 1, 0), Event(0, chip.now, 'EVHIF', 0, 1, 0, 1, 0)])
            # with the 8,193rd tick the next rise is a first one
            late.wait(1)
            self.rises(late, number - 1)
            self.assertEqual(late.irq, 1)
            self.rises(late, 1)
            self.assertEqual(late.irq, 0)

    def test_a_write_zeroes_the_counts(self):
        chip = self.watching(Bit.EVEN1 | Bit.EVEN0 | Bit.EVHS0)
        self.rises(chip, 3)
        chip.door = 1
        chip.wait(1000)
        chip.write(Register.EVENT_DETECT, [Bit.EVEN1 | Bit.EVEN0 | Bit.EVHS0])
        self.rises(chip, 3)
        self.assertEqual(chip.advance(seconds=1), [])
        self.rises(chip, 4)
        self.assertEqual(chip.irq, 0)

    def test_what_is_not_seen(self):
        for start, byte in (Bit.ST, 0), (0, Bit.EVEN1 | Bit.EVEN0):
            chip = still()
            chip.write(Register.SECONDS, [start])
            chip.wait(STARTUP)
            chip.write(Register.EVENT_DETECT, [byte])
            chip.door = 1
            self.rises(chip, 40)
            chip.write(Register.SECONDS, [Bit.ST])
            self.assertEqual(chip.advance(seconds=2), [])

    def test_edges_for_the_watchdog(self):
        chip = self.watching(Bit.EVWDT | Bit.EVEN1)
        chip.write(Register.WATCHDOG, [Bit.WDTEN | 1])
        for level in 1, 0, 1, 0:
            self.assertEqual(chip.wait(511), 511)
            chip.drum = level
        self.assertEqual(chip.events, [])
        self.assertEqual(chip.wait(1000), 512)
        self.assertEqual((chip.wdo, chip.irq), (0, 1))

    def test_a_flag_ends_a_wait_with_irq_low(self):
        chip = self.watching(Bit.EVEN1 | Bit.EVEN0)
        chip.door = 1
        chip.drum = 1
        twin = chip.copy()
        self.assertEqual(chip.irq, 0)
        self.assertEqual(chip.wait(5000), 1024)
        self.assertEqual(chip.events[2:], [Event(1024, chip.now, 'EVLIF', 0, 1, 0, 1, 1)])
        self.assertEqual(twin.advance(ticks=1024), [Event(1024, twin.now, 'EVLIF', 0, 1, 0, 1, 1)])

    def test_on_the_battery(self):
        for day, events in (1, []), (Bit.VBATEN | 1, ['IRQ', 'EVLIF']):
            chip = self.watching(Bit.EVEN0)
            chip.write(Register.DAY, [day])
            chip.door = 1
            chip.cut()
            self.assertEqual([event.line for event in chip.advance(seconds=1)], events)
            self.assertEqual(chip.door, 1)

    def test_a_flag_that_is_written(self):
        for flag, name in (Bit.EVHIF, 'EVHIF'), (Bit.EVLIF, 'EVLIF'):
            chip = still()
            chip.write(Register.EVENT_DETECT, [flag])
            self.assertEqual([(event.line, event.level) for event in chip.events], [('IRQ', 0), (name, 1)])
            self.assertEqual(Chip.from_text(chip.to_text()).irq, 0)
            self.assertEqual(Chip.from_text(chip.to_text()).events, [])

    def test_copies_and_equality(self):
        chip = still()
        twin = chip.copy()
        twin.door = 1
        self.assertNotEqual(chip, twin)
        self.assertEqual((chip.door, twin.door), (0, 1))
        twin.door = 0
        self.assertEqual(chip, twin)


class Times(Case):
    def test_kinds_of_seconds(self):
        for seconds, ticks in (
                (0, 0), (2, 65536), (0.5, 16384), (Fraction(1, 3), 10922), (Decimal('0.25'), 8192),
                (timedelta(seconds=3), 98304), (timedelta(microseconds=1), 0), (timedelta(milliseconds=1), 32), (1e-300, 0)):
            chip = still()
            chip.advance(seconds)
            self.assertEqual(chip.now, ticks, seconds)

    def test_nothing_is_lost(self):
        for piece, times, ticks in (
                (Fraction(1, 3), 3, 32768), (Decimal('0.1'), 10, 32768), (timedelta(microseconds=1), 15625, 512)):
            chip = still()
            for _ in range(times):
                chip.advance(seconds=piece)
            self.assertEqual(chip.now, ticks, piece)

    def test_mixed_pieces(self):
        chip = still()
        chip.advance(Fraction(1, 2 * SECOND))
        chip.advance(ticks=3)
        self.assertEqual(chip.now, 3)
        chip.wait(1)
        self.assertEqual(chip.now, 4)
        chip.advance(Fraction(1, 3 * SECOND))
        chip.advance(Fraction(1, 6 * SECOND))
        self.assertEqual(chip.now, 5)

    def test_wrong_times(self):
        chip = still()
        with self.unchanged(chip):
            for wrong in (dict(), dict(seconds=1, ticks=1), dict(seconds=-1), dict(ticks=-1), dict(seconds=-1e-9),
                          dict(seconds=timedelta(seconds=-1)), dict(seconds=float('nan')), dict(seconds=float('inf')),
                          dict(seconds=Decimal('NaN')), dict(seconds=Decimal('Infinity'))):
                self.assertRaises(ValueError, chip.advance, **wrong)
            for wrong in dict(seconds='1'), dict(ticks=1.0), dict(ticks='1'), dict(seconds=b'1'), dict(seconds=1j):
                self.assertRaises(TypeError, chip.advance, **wrong)


class BusTime(Case):
    TICK_A_BYTE = 8 * SECOND        # Hz

    def test_the_default_is_1_mhz(self):
        self.assertEqual(Chip().spi_hz, 1000000)
        self.assertEqual(Chip.from_text(Chip().to_text()).spi_hz, 1000000)

    def test_no_time(self):
        chip = still()
        for _ in range(100):
            chip.transfer([Code.SRREAD, 0, 0, 0], leftover=7)
        self.assertEqual(chip.now, 0)

    def test_a_byte_and_its_bits(self):
        chip = Chip(spi_hz=self.TICK_A_BYTE)
        chip.select()
        self.assertEqual(chip.now, 0)
        chip.byte(Code.SRREAD)
        self.assertEqual(chip.now, 1)
        chip.end(7)
        self.assertEqual(chip.now, 1)
        chip.transfer([], leftover=1)
        self.assertEqual(chip.now, 2)

    def test_the_time_passes_after_the_byte(self):
        chip = Chip(spi_hz=self.TICK_A_BYTE)
        begin_write(chip)
        began = chip.now
        chip.wait(CYCLE - 2)
        # code, then STATUS with one tick left, then with none
        self.assertEqual(chip.exchange([Code.SRREAD, 0, 0]), [None, Status.WIP | Status.WEL, 0])
        self.assertEqual(chip.events[-1], Event(1, began + CYCLE, 'WIP', 1, 1, 0))
        self.assertEqual(chip.now, began + CYCLE + 1)

    def test_polling_ends(self):
        # At 1 MHz a byte is 0.262144 ticks. Four bytes are out when the cycle begins: 1 tick, and 0.048576 over. The data
        # byte of poll k comes 2k - 1 bytes later, and finds the cycle over from 626 bytes on: in poll 314.
        chip = Chip()
        begin_write(chip)
        self.assertEqual(chip.now, 1)
        polls = 1
        while chip.transfer([Code.SRREAD, 0])[1] & Status.WIP:
            polls += 1
        self.assertEqual(polls, 314)
        self.assertEqual(chip.events[-1], Event(1, 165, 'WIP', 1, 1, 0))
        self.assertEqual(chip.now, 165)     # 632 bytes: 165.675

    def test_an_oscillator_that_is_polled(self):
        chip = Chip(spi_hz=self.TICK_A_BYTE)
        chip.write(Register.SECONDS, [Bit.ST])      # the third byte starts it, and its own tick is the first
        polls = 1
        while not chip.read(Register.DAY)[0] & Bit.OSCON:
            polls += 1
        self.assertEqual(polls, 11)     # the data byte of poll k comes after 3k ticks; 32 are needed

    def test_an_alarm_in_a_frame(self):
        chip = Chip(spi_hz=1024)        # a byte takes 256 ticks
        chip.write(Register.ALARM_1_HUNDREDTHS, [0x01])
        chip.write(Register.ALARM_1_DAY, [Bit.ALM1C2 | Bit.ALM1C0])
        chip.write(Register.CONTROL, [Bit.ALM1])
        chip.write(Register.SECONDS, [Bit.ST])
        self.assertEqual(chip.now, 12 * 256)
        chip.transfer([Code.SRREAD])
        # tick 360 of the oscillator: 104 after the 256 of its own byte
        self.assertEqual(chip.events, [Event(104, 12 * 256 + 104, 'IRQ', 0, 1, 0)])

    def test_a_million_bytes_at_an_odd_rate(self):
        # 262,144,000,000 / 3,000,001 is 87,381, and 912,619 over
        carry, byte = mcp795._Carry(), Fraction(8 * SECOND, 3000001)
        self.assertEqual(sum(carry.add(byte) for _ in range(1000000)), 87381)
        self.assertEqual(Fraction(carry.rest, carry.unit), Fraction(912619, 3000001))

    def test_bytes_at_an_odd_rate(self):
        chip = Chip(spi_hz=3000001)
        chip.select()
        for _ in range(3000):
            chip.byte(0)
        self.assertEqual(chip.now, 262)     # 786,432,000 / 3,000,001
        chip.spi_hz = Fraction(1, 3)        # 24 s a byte
        chip.byte(0)
        self.assertEqual(chip.now, 262 + 24 * SECOND)

    def test_two_rates_share_the_rest(self):
        chip = Chip(spi_hz=3 * self.TICK_A_BYTE)
        chip.select()
        chip.byte(0)
        chip.spi_hz = Fraction(3, 2) * self.TICK_A_BYTE
        chip.byte(0)
        self.assertEqual(chip.now, 1)

    def test_wrong_rates(self):
        chip = Chip(spi_hz=5000.5)
        for wrong in 0, -1, float('nan'), float('inf'):
            with self.assertRaises(ValueError):
                chip.spi_hz = wrong
            self.assertRaises(ValueError, Chip, 2, wrong)
        with self.assertRaises(TypeError):
            chip.spi_hz = '1000000'
        self.assertEqual(chip.spi_hz, Fraction(10001, 2))


def fresh_text(part):
    """The text of a fresh chip, by the table of the saved form."""
    eight = ','.join(['0'] * 8)
    lines = ['part=%d' % part]
    lines += ['reg%d=%d' % (i, i in (4, 5, 6)) for i in range(32)]
    lines += ['sram%d=%s' % (i, eight) for i in range(8)]
    lines += ['divider=0', 'startup=0', 'watchdog=0', 'delay=0', 'pulse=0', 'power=1', 'mark=0', 'wel=0', 'bp=0', 'lock=0',
              'stage=0,0,0', 'offsets=0', 'load=' + eight, 'next=0', 'target=0,0', 'left=0']
    erased = ','.join(['255'] * 8)
    lines += ['ee%d=%s' % (i, erased) for i in range(16 if part in (1, 3) else 32)]
    lines += ['id%d=%s' % (i, erased) for i in range(2)]
    lines += ['evls=0', 'evhs=0', 'edges=0', 'since=0', 'debounce=0']
    return ''.join(line + '\n' for line in lines)


class Saved(Case):
    def setUp(self):
        folder = tempfile.TemporaryDirectory()
        self.addCleanup(folder.cleanup)
        self.folder = pathlib.Path(folder.name)
        self.file = self.folder / 'station.chip'

    def names(self):
        return sorted(os.listdir(str(self.folder)))

    def test_fresh(self):
        for part in Part:
            self.assertEqual(Chip(part).to_text(), fresh_text(part))
            self.assertEqual(Chip.from_text(fresh_text(part)), Chip(part))

    def test_the_state_has_the_numbers_of_the_text(self):
        running = still('B10')
        running.write(Register.WATCHDOG, [Bit.WDTEN | 7])
        running.advance(ticks=STARTUP + 70000)
        running.write(Register.EVENT_DETECT, [Bit.EVEN1 | Bit.EVEN0 | Bit.EVHS1])
        running.door = running.drum = 1
        running.advance(ticks=300)
        running.select()
        running.byte(Code.READ)
        for chip in Chip(), evening(), running:
            state = b''
            for line in chip.to_text().splitlines():
                key, numbers = line.split('=')
                if not key.startswith(('ee', 'id')):
                    width = 3 if key in ('divider', 'startup', 'watchdog', 'delay', 'pulse', 'since', 'debounce') else 1
                    state += b''.join(int(number).to_bytes(width, 'little') for number in numbers.split(','))
            self.assertEqual(bytes(chip._state), state)
        self.assertEqual(len(state), 142)
        self.assertEqual(state[103:106], (70300).to_bytes(3, 'little'))
        self.assertEqual(state[133:], bytes([1, 1, 1, 0x2C, 0x01, 0, 0xD4, 0x02, 0]))      # 300, and 1,024 less 300
        self.assertEqual(state[117:120], bytes([3, Code.READ, 0]))

    def test_a_file_from_before_there_were_event_inputs(self):
        for chip in evening(), still('B10'):
            text = chip.to_text()
            older = text[:text.index('evls=')]
            self.file.write_text(older)
            for loaded in Chip.from_text(older), Chip.load(self.file):
                self.assertEqual(loaded, chip)
                self.assertEqual((loaded.door, loaded.drum), (0, 0))
                self.assertEqual(loaded.to_text(), text)

    def test_inputs_are_saved(self):
        chip = still('B20')
        chip.wait(STARTUP)
        chip.write(Register.EVENT_DETECT, [Bit.EVEN1 | Bit.EVEN0 | Bit.EVHS0])
        chip.door = chip.drum = 1
        chip.wait(24)
        other = Chip.from_text(chip.to_text(), spi_hz=None)
        self.assertEqual(other, chip)
        self.assertEqual((other.door, other.drum), (1, 1))
        self.assertTrue(chip.to_text().endswith('evls=1\nevhs=1\nedges=1\nsince=24\ndebounce=1000\n'))
        self.assertEqual(other.wait(5000), 1000)
        self.assertEqual(other.irq, 0)

    def test_evening_and_morning(self):
        evening().save(self.file)
        text = self.file.read_text()
        for line in 'wel=1', 'left=64', 'ee2=255,255,255,255,255,255,255,255':
            self.assertIn('\n%s\n' % line, text)
        chip = Chip.load(self.file, spi_hz=None)
        self.assertEqual(chip, evening())
        self.assertEqual((chip.now, chip.events, chip.spi_hz), (0, [], None))
        self.assertEqual(chip.wait(200), 64)
        self.assertEqual(chip.transfer([3, 16, 0, 0])[2:], bytes([4, 210]))
        chip.save(self.file)
        text = self.file.read_text()
        for line in 'wel=0', 'left=0', 'ee2=4,210,255,255,255,255,255,255':
            self.assertIn('\n%s\n' % line, text)
        self.assertEqual(self.names(), ['station.chip'])

    def test_anything_that_names_a_file(self):
        chip = evening()
        for name in self.file, str(self.file), os.fsencode(str(self.file)):
            chip.save(name)
            self.assertEqual(Chip.load(name), chip)

    def test_open_files(self):
        chip = evening()
        text = io.BytesIO()
        chip.save(text)
        self.assertEqual(text.getvalue().decode(), chip.to_text())
        text.seek(0)
        self.assertEqual(Chip.load(text), chip)
        with open(str(self.file), 'wb') as file:
            chip.save(file)
        with open(str(self.file), 'rb') as file:
            self.assertEqual(Chip.load(file), chip)
        with open(str(self.file)) as file, self.assertRaisesRegex(TypeError, 'rb'):
            Chip.load(file)
        self.assertRaises(TypeError, chip.save, io.StringIO())

    def test_a_chip_that_holds_a_line_low(self):
        chip = still()
        chip.write(Register.CONTROL, [Bit.ALM0])
        chip.write(Register.ALARM_0_DAY, [Bit.ALM0IF])
        other = Chip.from_text(chip.to_text())
        self.assertEqual((other.irq, other.wdo, other.events), (0, 1, []))

    def test_every_part_in_a_frame_and_without_power(self):
        for part in Part:
            chip = Chip(part)
            chip.select()
            chip.byte(Code.EEREAD)
            self.assertEqual(Chip.from_text(chip.to_text().encode()), chip)
            self.assertTrue(Chip.from_text(chip.to_text()).selected)
            chip.cut()
            self.assertFalse(Chip.from_text(chip.to_text()).powered)

    def bad(self, text, line):
        self.file.write_bytes(text)
        for load in (lambda: Chip.load(self.file), lambda: Chip.from_text(text), lambda: Chip.load(io.BytesIO(text))):
            with self.assertRaises(BadText) as caught:
                load()
            self.assertEqual((caught.exception.number, caught.exception.line), (8, line), text)
            self.assertIn('refused by 8, line %d: ' % line, str(caught.exception))
        return caught.exception

    def test_bad_files(self):
        good = evening().to_text().encode()
        lines = good.splitlines(True)

        def changed(old, new):
            self.assertEqual(good.count(b'\n%s\n' % old), 1)
            return good.replace(b'\n%s\n' % old, b'\n%s\n' % new)

        self.bad(changed(b'reg4=1', b'reg4=33'), 6)
        self.bad(changed(b'left=64', b'left=165'), 57)
        self.bad(changed(b'power=1', b'power=0'), 57)
        self.bad(changed(b'wel=1', b'wel=01'), 49)
        self.bad(good.replace(b'mark=0\n', b''), 48)
        self.bad(good.replace(b'part=2', b'part=1'), 74)
        self.bad(b''.join(lines[:80]), 81)
        self.bad(good[:-1], 96)
        self.bad(good + b'\n', 97)
        self.bad(b''.join(lines[:91])[:-1], 91)
        self.bad(b''.join(lines[:92]), 93)
        self.bad(changed(b'evls=0', b'evls=2'), 92)
        self.bad(changed(b'evhs=0', b'evhs=2'), 93)
        self.bad(changed(b'edges=0', b'edges=1'), 94)
        self.bad(changed(b'since=0', b'since=1'), 95)
        self.bad(good.replace(b'debounce=0', b'debounce=1'), 96)
        self.bad(good.replace(b'evls=0\n', b''), 92)
        self.bad(good.replace(b'\n', b'\r\n'), 1)
        self.bad(b'', 1)
        self.bad(b'something else', 1)
        self.bad(bytes(range(256)) * 100, 1)
        self.bad(good + b'x' * 100000, 97)
        self.bad(changed(b'wel=1', b'wel=\0'), 49)

    def test_what_a_bad_file_says(self):
        good = evening().to_text().encode()
        self.file.write_bytes(good.replace(b'\nreg4=1\n', b'\nreg4=33\n'))
        with self.assertRaises(BadText) as caught:
            Chip.load(self.file)
        self.assertEqual(str(caught.exception), "%s: refused by 8, line 6: 'reg4=33'" % self.file)
        self.assertEqual((caught.exception.act, caught.exception.argument), ('load', str(self.file)))
        self.assertIsInstance(caught.exception, Refused)
        self.assertIn('line 1: the text ends before it', str(self.bad(b'', 1)))
        self.assertIn('line 81: the text ends before it', str(self.bad(b''.join(good.splitlines(True)[:80]), 81)))
        self.assertIn("'debounce=0' without a newline", str(self.bad(good[:-1], 96)))
        self.assertIn(r"'part=2\r'", str(self.bad(good.replace(b'\n', b'\r\n'), 1)))
        self.assertIn(r"'\xe9\xff'", str(self.bad(b'\xe9\xff\n', 1)))

    def test_text_that_is_no_ascii(self):
        for text in '\u20ac', '\ud800', 'part=\u0662\n':
            with self.assertRaises(BadText) as caught:
                Chip.from_text(text)
            self.assertEqual(caught.exception.line, 1)
        for text in 5, None:
            self.assertRaises(TypeError, Chip.from_text, text)

    def test_no_file(self):
        self.assertRaises(FileNotFoundError, Chip.load, self.file)
        self.assertRaises(IsADirectoryError, Chip.load, self.folder)
        self.assertRaises(TypeError, Chip.load, None)
        self.assertRaises(TypeError, Chip().save, None)

    def test_a_new_file_takes_the_name(self):
        self.file.write_text('old')
        (self.folder / 'station.chip.new0').write_text('in the way')
        evening().save(self.file)
        self.assertEqual(self.names(), ['station.chip', 'station.chip.new0'])
        self.assertEqual((self.folder / 'station.chip.new0').read_text(), 'in the way')
        self.assertEqual(Chip.load(self.file), evening())

    def test_no_name_is_free(self):
        for digit in range(10):
            (self.folder / ('station.chip.new%d' % digit)).write_text('in the way')
        self.file.write_text('old')
        self.assertRaises(FileExistsError, evening().save, self.file)
        self.assertEqual(self.file.read_text(), 'old')

    def test_a_save_that_fails_leaves_the_old_file(self):
        self.file.write_text('old')
        for step in 'fsync', 'replace':
            with mock.patch.object(os, step, side_effect=OSError('no')), self.assertRaises(OSError):
                evening().save(self.file)
            self.assertEqual(self.file.read_text(), 'old')
            self.assertEqual(self.names(), ['station.chip'])

    def test_what_is_not_replaced(self):
        self.assertRaises(IsADirectoryError, Chip().save, self.folder)
        self.assertRaises(FileNotFoundError, Chip().save, self.folder / 'none' / 'station.chip')
        os.mkfifo(str(self.file))
        self.assertRaises(OSError, Chip().save, self.file)
        self.assertEqual(self.names(), ['station.chip'])

    def test_a_link_becomes_a_file(self):
        other = self.folder / 'other'
        other.write_text('old')
        self.file.symlink_to(other)
        evening().save(self.file)
        self.assertFalse(self.file.is_symlink())
        self.assertEqual(other.read_text(), 'old')

    def test_others_may_read_it(self):
        old = os.umask(0o022)
        self.addCleanup(os.umask, old)
        evening().save(self.file)
        self.assertEqual(self.file.stat().st_mode & 0o777, 0o644)

    @unittest.skipUnless(PROGRAM.is_file(), 'target/bin/mcp795 is not built')
    def test_the_text_is_the_programs(self):
        tape = ''.join('op=%s arg=%d\n' % line for line in (
            ('part', 2), ('select', 0), ('byte', 6), ('end', 0), ('select', 0), ('byte', 2), ('byte', 16), ('byte', 4),
            ('byte', 210), ('end', 0), ('wait', 100)))
        subprocess.run([str(PROGRAM), '--save', str(self.file)], input=tape.encode(), stdout=subprocess.PIPE, check=True)
        self.assertEqual(self.file.read_text(), evening().to_text())
        self.assertEqual(Chip.load(self.file), evening())
        evening().save(self.file)
        done = subprocess.run([str(PROGRAM), '--load', str(self.file)], input=b'op=wait arg=200\n', stdout=subprocess.PIPE)
        self.assertEqual(done.stdout, b'no=0 out=64 irq=1 wdo=1\n')


class Tapes(Case):
    """The tapes of crates/mcp795/data by the named acts, against their stored answers; without the long random ones."""

    LINE = re.compile(rb'op=([a-z]+) arg=([0-9]+)')
    # as much of a line as one of the form may begin with
    BEGUN = re.compile(rb'(o(p(=([a-z]+( (a(r(g(=[0-9]*)?)?)?)?)?)?)?)?)?')
    NAMES = b'part', b'select', b'byte', b'end', b'wait', b'cut', b'up', b'evls', b'evhs'

    def fault(self, line):
        """Number and column of a bad line; None of one that is not."""
        match = self.LINE.fullmatch(line)
        if len(line) > 64:
            return 71, 65
        if not match:
            return 72, self.BEGUN.match(line).end() + 1
        name, digits = match.groups()
        if name not in self.NAMES:
            return 73, 4
        if len(digits) > 1 and digits.startswith(b'0'):
            return 75, match.start(2) + 1
        if len(digits) > 8:
            return 75, match.start(2) + 9
        if (name == b'part') != (self.chip is None):
            return 74, 0
        return None

    def answer(self, line):
        out, refusal = None, 0
        fault = self.fault(line)
        name, number = (None, 0) if fault else (self.LINE.fullmatch(line).group(1).decode(), int(self.LINE.fullmatch(line).group(2)))
        try:
            if fault:
                refusal, out = fault
            elif name == 'part':
                self.chip = Chip(number, spi_hz=None)
            elif name in ('select', 'up') and number == 0:
                getattr(self.chip, name)()
            elif name in ('byte', 'end', 'wait', 'cut'):
                out = getattr(self.chip, name)(number)
            elif name in ('evls', 'evhs'):
                setattr(self.chip, {'evls': 'door', 'evhs': 'drum'}[name], number)
            else:
                refusal = self.chip.act(Act[name.upper()], number).refusal
        except Refused as error:
            refusal = error.number
        levels = (self.chip.irq, self.chip.wdo) if self.chip else (1, 1)
        return b'no=%d out=%s irq=%d wdo=%d' % (refusal, b'z' if out is None else b'%d' % out, *levels)

    def test_tapes(self):
        crate = TOP / 'crates' / 'mcp795'
        answers = (crate / 'stdout').read_bytes().splitlines()
        for name in (crate / 'args').read_text().splitlines():
            tape = (crate / 'data' / name).read_bytes()
            lines = tape.split(b'\n')[:-1] if tape.endswith(b'\n') or not tape else tape.split(b'\n')
            expected, answers = answers[:len(lines)], answers[len(lines):]
            if name.startswith('mixed'):
                continue
            self.chip = None
            for number, line in enumerate(lines):
                self.assertEqual(self.answer(line), expected[number], '%s, line %d' % (name, number + 1))
        self.assertEqual(answers, [])


class SpiDevs(Case):
    def test_xfer2(self):
        spi = SpiDev(Chip())
        spi.open(0, 0)
        self.assertEqual(spi.xfer2([Code.SRREAD, 0]), [0xFF, 0])
        self.assertEqual(spi.xfer2((Code.SRREAD, 0)), (0xFF, 0))
        self.assertEqual(spi.xfer2(b'\x05\0'), [0xFF, 0])
        self.assertEqual(SpiDev(Chip(), off=0).xfer2([Code.EEWREN]), [0])
        spi.close()

    def test_a_write_by_an_unchanged_driver(self):
        chip = Chip()
        with SpiDev(chip) as spi:
            spi.max_speed_hz = 500000
            spi.mode = 0b11
            spi.writebytes([Code.EEWREN])
            spi.writebytes2(bytes([Code.EEWRITE, 16, 4, 210]))
            while spi.xfer2([Code.SRREAD, 0])[1] & Status.WIP:
                pass
            self.assertEqual(spi.xfer2([Code.EEREAD, 16, 0, 0])[2:], [4, 210])
        self.assertEqual([event.level for event in chip.events], [1, 0])

    def test_write_then_read_are_two_frames(self):
        spi = SpiDev(still())
        spi.writebytes([Code.READ, Register.DATE])
        self.assertEqual(spi.readbytes(3), [0xFF] * 3)

    def test_speed(self):
        chip = Chip()
        spi = SpiDev(chip)
        self.assertEqual(spi.max_speed_hz, 1000000)
        spi.max_speed_hz = 8 * SECOND
        self.assertEqual((spi.max_speed_hz, chip.spi_hz), (8 * SECOND, 8 * SECOND))
        spi.xfer2([0, 0])
        self.assertEqual(chip.now, 2)
        spi.xfer2([0, 0], 4 * SECOND)
        self.assertEqual(chip.now, 6)
        spi.xfer2([0], 0, 500000)       # half a second
        self.assertEqual(chip.now, 7 + SECOND // 2)
        self.assertEqual(chip.spi_hz, 8 * SECOND)

    def test_no_bus_time_stays_none(self):
        chip = still()
        spi = SpiDev(chip)
        spi.max_speed_hz = 1
        self.assertEqual(spi.max_speed_hz, 1)
        spi.xfer2([0, 0], 1)
        self.assertEqual((chip.now, chip.spi_hz), (0, None))
        spi.xfer2([0], delay_usec=1000000)
        self.assertEqual(chip.now, SECOND)

    def test_the_delay_passes_before_cs_rises(self):
        chip = still()
        enable(chip)
        SpiDev(chip).xfer2([Code.EEWRITE, 0, 1], 0, 10000)
        self.assertEqual(chip.wip, 1)

    def test_settings_that_the_chip_is_not_wired_for(self):
        spi = SpiDev(Chip())
        self.assertEqual((spi.mode, spi.bits_per_word, spi.lsbfirst, spi.cshigh), (0, 8, False, False))
        spi.lsbfirst = False
        for name, value in (('mode', 1), ('mode', 2), ('bits_per_word', 16), ('lsbfirst', True), ('cshigh', True),
                            ('no_cs', True), ('threewire', True), ('loop', True), ('max_speed_hz', 0), ('max_speed_hz', -1)):
            with self.assertRaises(ValueError):
                setattr(spi, name, value)
        self.assertRaises(ValueError, spi.xfer2, [0], 0, 0, 9)
        self.assertRaises(ValueError, SpiDev, Chip(), 256)

    def test_wrong_data(self):
        chip = Chip()
        spi = SpiDev(chip)
        with self.unchanged(chip):
            self.assertRaises(TypeError, spi.xfer2, [])
            self.assertRaises(ValueError, spi.xfer2, [256])
            self.assertRaises(TypeError, spi.writebytes, 5)
        chip.select()
        self.refused(1, chip, lambda c: spi.xfer2([5, 0]))
        self.assertEqual(chip.spi_hz, 1000000)


class Library(Case):
    def setUp(self):
        folder = tempfile.TemporaryDirectory()
        self.addCleanup(folder.cleanup)
        self.folder = pathlib.Path(folder.name)

    def named(self, path):
        return mock.patch.dict(os.environ, MCP795_LIBRARY=str(path))

    def test_missing(self):
        path = self.folder / 'none.so'
        with self.named(path):
            for make in Chip, lambda: Chip.from_text(fresh_text(2)), lambda: Chip.load(io.BytesIO(b'')):
                with self.assertRaisesRegex(LibraryError, 'tools/library') as caught:
                    make()
                self.assertIn(str(path), str(caught.exception))
                self.assertIn('MCP795_LIBRARY', str(caught.exception))

    def test_no_library(self):
        path = self.folder / 'text.so'
        path.write_text('no library')
        with self.named(path), self.assertRaisesRegex(LibraryError, 'not what tools/library builds'):
            Chip()
        with self.named(self.folder), self.assertRaises(LibraryError):
            Chip()

    def test_another_library(self):
        import _ctypes
        if not getattr(_ctypes, '__file__', '').endswith('.so'):
            self.skipTest('no shared object at hand')
        with self.named(_ctypes.__file__), self.assertRaisesRegex(LibraryError, 'mcp795_new'):
            Chip()

    def test_a_library_of_another_state_size(self):
        for size in 0, 123, 133, 141, 143, 984:
            with mock.patch.object(mcp795, '_STATE', size):
                for make in (Chip, lambda: Chip('B10'), lambda: Chip.from_text(fresh_text(1)),
                             lambda: Chip.load(io.BytesIO(b''))):
                    with self.assertRaises(LibraryError) as caught:
                        make()
                    self.assertEqual(str(caught.exception), 'the library and tools/mcp795.py have different state sizes: '
                                     'run tools/library (%s)' % mcp795._library()._name)
                self.assertRaises(Refused, Chip, 5)

    def test_beside_the_front_end(self):
        library = mcp795._library()._name
        place = self.folder / 'target' / 'library'
        for folder in place, self.folder / 'tools':
            folder.mkdir(parents=True)
        front_end = self.folder / 'tools' / 'mcp795.py'
        shutil.copy(str(FRONT_END), str(front_end))
        for named in None, '':
            done = self.command(front_end, library=named)
            self.assertEqual((done.returncode, done.stdout), (1, ''))
            self.assertIn('mcp795.py: %s is not there: run tools/library' % (place.resolve() / 'libmcp795.so'), done.stderr)
        (place / 'libmcp795.so').symlink_to(library)
        self.assertEqual(self.command(front_end, library=None).returncode, 0)

    def test_a_relative_name(self):
        library = pathlib.Path(mcp795._library()._name)
        done = self.command(FRONT_END, library=library.name, cwd=str(library.parent))
        self.assertEqual((done.returncode, done.stderr), (0, ''))

    def command(self, front_end, *arguments, library='', **more):
        environment = {name: value for name, value in os.environ.items() if name != 'MCP795_LIBRARY'}
        if library is not None:
            environment['MCP795_LIBRARY'] = library
        return subprocess.run([sys.executable, '-B', str(front_end), *arguments], env=environment, stdout=subprocess.PIPE,
                              stderr=subprocess.PIPE, universal_newlines=True, **more)

    def test_help(self):
        for option in '-h', '--help':
            done = self.command(FRONT_END, option, library=str(self.folder / 'none.so'))
            self.assertEqual((done.returncode, done.stderr), (0, ''))
            for word in 'Chip(', 'spi_hz', 'MCP795_LIBRARY', 'tools/library', 'advance':
                self.assertIn(word, done.stdout)

    def test_the_example(self):
        done = self.command(FRONT_END, library=mcp795._library()._name)
        self.assertEqual((done.returncode, done.stderr), (0, ''))
        self.assertIn('WIP is 0 after 164 ticks', done.stdout)
        self.assertRegex(done.stdout, r'EEREAD +03 10 00 00 +SO: -- -- 04 D2\n')

    def test_the_example_of_the_readme(self):
        lines = (TOP / 'README.md').read_text().splitlines()
        first = lines.index('    import sys; sys.path.insert(0, "tools")')
        last = next(i for i in range(first, len(lines)) if lines[i] and not lines[i].startswith('    '))
        program = self.folder / 'example.py'
        program.write_text('\n'.join(line[4:] for line in lines[first:last]))
        done = subprocess.run([sys.executable, '-B', str(program)], cwd=TOP, capture_output=True, text=True,
                              env={**os.environ, 'MCP795_LIBRARY': mcp795._library()._name})
        self.assertEqual((done.returncode, done.stderr), (0, ''))
        self.assertRegex(done.stdout, r"\A\[Event\(after=164, .*line='WIP'.*\)\]\nb'\\x04\\xd2'\n\Z")

    def test_wrong_use(self):
        done = self.command(FRONT_END, 'tape')
        self.assertEqual((done.returncode, done.stdout), (2, ''))


if __name__ == '__main__':
    unittest.main()
