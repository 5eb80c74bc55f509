"""A driver's tests with the chip of tools/mcp795.py in place of the board.

Chip() has an SPI clock of 1 MHz, so that the driver's polling takes time and ends. Chip(spi_hz=None) is for tests that
count ticks by hand: its bus takes none. A tick is 1/32,768 s; the oscillator needs 32 to start; a write cycle takes 164.
"""
import pathlib
import sys
import unittest
from datetime import datetime

HERE = pathlib.Path(__file__).resolve().parent
sys.path[:0] = [str(HERE), str(HERE.parents[1] / 'tools')]

import driver
from driver import Mcp795, WriteFailed
from mcp795 import Bit, Chip, Code, Register, SpiDev, Status

SECOND = 32768
STARTUP = 32
CYCLE = 164


class Clock(unittest.TestCase):
    def test_the_time_goes_on(self):
        for begin, later in (
                (datetime(2026, 2, 28, 23, 59, 30), datetime(2026, 3, 1, 0, 0, 30)),
                (datetime(2028, 2, 28, 23, 59, 30), datetime(2028, 2, 29, 0, 0, 30)),
                (datetime(2099, 12, 31, 23, 59, 30), datetime(2000, 1, 1, 0, 0, 30))):
            chip = Chip()
            rtc = Mcp795(chip)
            rtc.set_time(begin)
            chip.advance(ticks=STARTUP)
            self.assertEqual(rtc.get_time(), begin)
            chip.advance(seconds=60)
            self.assertEqual(rtc.get_time(), later)

    def test_a_read_that_the_clock_meets(self):
        # A byte takes 262 ticks, so the seconds are read 524 ticks into the frame and the minutes at 786. The minute passes
        # between the two: two hundredths, 655 ticks, less the last step's 100 at most.
        chip = Chip(spi_hz=1000)
        rtc = Mcp795(chip)
        rtc.set_time(datetime(2026, 5, 14, 12, 0, 59))
        while chip.registers['HUNDREDTHS'] != 0x98:
            chip.advance(ticks=100)
        twin = chip.copy()
        seconds, minutes = rtc.read(driver.SECONDS, 2)
        self.assertEqual((seconds & 0x7F, minutes), (0x59, 0x01))       # 12:01:59 it never was
        self.assertEqual(Mcp795(twin).get_time(), datetime(2026, 5, 14, 12, 1, 0))

    def test_the_time_of_a_power_failure_is_kept(self):
        chip = Chip()
        rtc = Mcp795(chip)
        rtc.set_time(datetime(2026, 5, 14, 23, 58))
        chip.advance(ticks=STARTUP)
        chip.cut()
        chip.advance(seconds=210)
        chip.up()
        stamps = rtc.read(Register.POWER_DOWN_MINUTES, 8)
        self.assertEqual(stamps[:3] + stamps[4:7], bytes([0x58, 0x23, 0x14, 0x01, 0x00, 0x15]))
        rtc.set_time(datetime(2026, 5, 15, 0, 2))
        self.assertEqual(rtc.read(Register.POWER_DOWN_MINUTES, 8), stamps)

    def test_the_sign_of_the_calibration_is_kept(self):
        chip = Chip()
        chip.write(Register.HOURS, [Bit.CALSGN])
        Mcp795(chip).set_time(datetime(2026, 5, 14, 23, 58))
        self.assertEqual(chip.registers['HOURS'], Bit.CALSGN | 0x23)

    def test_years_that_do_not_fit(self):
        for year in 1999, 2100:
            self.assertRaises(ValueError, Mcp795(Chip()).set_time, datetime(year, 1, 1))


class Alarm(unittest.TestCase):
    def setUp(self):
        self.chip = Chip(spi_hz=None)
        self.rtc = Mcp795(self.chip)
        self.rtc.set_time(datetime(2026, 5, 14, 23, 59, 30))

    def test_it_comes_when_it_should(self):
        self.rtc.set_alarm(datetime(2026, 5, 15, 0, 0, 0))
        event, = self.chip.advance(seconds=120)
        self.assertEqual((event.line, event.level, event.after), ('IRQ', 0, STARTUP + 30 * SECOND))
        self.assertTrue(self.rtc.clear_alarm())
        self.assertEqual(self.chip.irq, 1)
        self.assertFalse(self.rtc.clear_alarm())

    def test_it_does_not_come_on_another_day(self):
        self.rtc.set_alarm(datetime(2026, 5, 16, 0, 0, 0))
        self.assertEqual(self.chip.advance(seconds=120), [])


class Watchdog(unittest.TestCase):
    def setUp(self):
        self.chip = Chip(spi_hz=None)
        self.rtc = Mcp795(self.chip)
        self.rtc.set_time(datetime(2026, 5, 14))
        self.rtc.start_watchdog(4)

    def test_not_fed(self):
        down, up = self.chip.advance(seconds=5)
        self.assertEqual((down.line, down.level, down.after), ('WDO', 0, STARTUP + SECOND))
        self.assertEqual((up.line, up.level, up.after), ('WDO', 1, STARTUP + SECOND + 4))

    def test_fed(self):
        for _ in range(20):
            self.assertEqual(self.chip.advance(seconds=0.5), [])
            self.rtc.feed_watchdog()
        self.assertEqual(self.chip.advance(seconds=2)[0].after, SECOND)

    def test_no_such_period(self):
        self.assertRaises(ValueError, self.rtc.start_watchdog, 8)


class Door(unittest.TestCase):
    DEBOUNCE = SECOND // 2

    def setUp(self):
        self.chip = Chip(spi_hz=None)
        self.rtc = Mcp795(self.chip)
        self.rtc.set_time(datetime(2026, 5, 14))
        self.chip.advance(ticks=STARTUP)
        self.rtc.watch_door()

    def test_a_door_that_bounces(self):
        for level in 1, 0, 1, 0, 1:
            self.chip.advance(seconds=0.002)
            self.chip.door = level
        self.assertEqual(self.chip.advance(ticks=self.DEBOUNCE - 1), [])
        irq, flag = self.chip.advance(seconds=1)
        self.assertEqual((irq.line, irq.level, irq.after), ('IRQ', 0, 1))
        self.assertEqual((flag.line, flag.level, flag.after), ('EVLIF', 1, 1))
        self.assertTrue(self.rtc.door_was_opened())
        self.assertEqual(self.chip.irq, 1)
        self.assertFalse(self.rtc.door_was_opened())
        self.assertEqual(self.chip.advance(seconds=10), [])

    def test_asking_does_not_disturb(self):
        self.chip.door = 1
        for _ in range(4):
            self.chip.advance(seconds=0.1)
            self.assertFalse(self.rtc.door_was_opened())
        self.chip.advance(seconds=0.1)
        self.assertTrue(self.rtc.door_was_opened())

    def test_a_door_that_was_open_before(self):
        self.chip.door = 1
        self.rtc.watch_door()
        self.assertEqual(self.chip.advance(seconds=10), [])
        self.assertFalse(self.rtc.door_was_opened())


class Eeprom(unittest.TestCase):
    def setUp(self):
        self.chip = Chip()
        self.rtc = Mcp795(self.chip)

    def test_what_is_written_is_read(self):
        self.rtc.write_eeprom(0x10, b'\x04\xd2')
        self.assertEqual(self.rtc.read_eeprom(0x10, 2), b'\x04\xd2')
        self.assertEqual(self.chip.eeprom, b'\xff' * 16 + b'\x04\xd2' + b'\xff' * 238)

    def test_it_waits_for_the_cycle_and_no_longer(self):
        self.rtc.write_eeprom(0, b'\x01')
        begin, end = self.chip.events
        self.assertEqual(end.at - begin.at, CYCLE)
        self.assertLessEqual(self.chip.now - end.at, 1)     # a poll at 1 MHz is half a tick

    def test_a_frame_rolls_over_in_its_page(self):
        # The trap: four bytes from 06h on in one frame.
        self.chip.transfer([Code.EEWREN])
        self.chip.transfer([Code.EEWRITE, 0x06, 1, 2, 3, 4])
        self.chip.advance(ticks=CYCLE)
        self.assertEqual(self.chip.eeprom[:10], b'\x03\x04\xff\xff\xff\xff\x01\x02\xff\xff')

    def test_the_driver_writes_page_by_page(self):
        data = bytes(range(20))
        self.rtc.write_eeprom(0x06, data)
        self.assertEqual(self.chip.eeprom, b'\xff' * 6 + data + b'\xff' * 230)
        self.assertEqual(len(self.chip.events), 2 * 4)      # pages 0, 1, 2 and 3

    def test_it_fits_or_nothing_is_written(self):
        for address, data in (-1, b'a'), (0xFF, b'ab'), (0, bytes(257)):
            self.assertRaises(ValueError, self.rtc.write_eeprom, address, data)
        self.assertEqual(self.chip.events, [])
        self.rtc.write_eeprom(0xFF, b'a')
        self.rtc.write_eeprom(0, b'')

    def test_a_forgotten_enable(self):
        """How this bug is caught. Each frame is lawful and nothing is refused, so look at what came of them: the bytes
        stored, and the cycles that ran. A driver that looks at STATUS, as this one does, catches it by itself."""
        class Forgetful(Mcp795):
            def enable(self):
                pass

        self.assertRaises(WriteFailed, Forgetful(self.chip).write_eeprom, 0, b'\x12')
        self.assertEqual(self.chip.eeprom, b'\xff' * 256)
        self.assertEqual(self.chip.events, [])

    def test_a_protected_page(self):
        self.rtc.protect(driver.LAST_QUARTER)
        self.rtc.write_eeprom(0xBF, b'\x12')
        before = self.chip.eeprom
        self.assertRaises(WriteFailed, self.rtc.write_eeprom, 0xC0, b'\x12')
        self.assertEqual(self.chip.eeprom, before)
        self.assertEqual(self.chip.status, Status.BP0)      # no enable is left behind
        self.rtc.protect(driver.NOTHING)
        self.rtc.write_eeprom(0xC0, b'\x12')
        self.assertEqual(self.chip.eeprom[0xBF:0xC1], b'\x12\x12')

    def test_through_spidev(self):
        class Bus:
            def __init__(self, spi):
                self.spi = spi

            def transfer(self, data):
                return bytes(self.spi.xfer2(list(data)))

        spi = SpiDev(self.chip)
        spi.max_speed_hz = 500000
        Mcp795(Bus(spi)).write_eeprom(0, b'\x12')
        self.assertEqual(self.chip.eeprom[0], 0x12)


class Identity(unittest.TestCase):
    EUI = bytes([0x00, 0x1E, 0xC0, 0x12, 0x34, 0x56, 0x78, 0x9A, 0xBC, 0xDE])

    def test_unlock_and_write(self):
        chip = Chip()
        rtc = Mcp795(chip)
        rtc.write_id(2, self.EUI)
        self.assertEqual(rtc.read_id(), b'\xff\xff' + self.EUI + b'\xff' * 4)
        self.assertEqual(chip.id, rtc.read_id())

    def test_without_the_unlock(self):
        class Locked(Mcp795):
            def unlock(self):
                pass

        chip = Chip()
        self.assertRaises(WriteFailed, Locked(chip).write_id, 0, self.EUI)
        self.assertEqual(chip.id, b'\xff' * 16)


class PowerFails(Exception):
    pass


class FailingBus:
    """Hands frames on to a chip. Power fails just after one that writes the EEPROM: in the middle of its cycle."""

    def __init__(self, chip, mask):
        self.chip = chip
        self.mask = mask

    def transfer(self, data):
        answer = self.chip.transfer(data)
        if data[0] == driver.EEWRITE:
            self.chip.advance(ticks=CYCLE // 2)
            self.stored = self.chip.cut(self.mask)
            raise PowerFails
        return answer


class PowerCut(unittest.TestCase):
    OLD = bytes(range(0xA0, 0xA8))
    NEW = bytes(range(0x50, 0x58))

    def test_every_way_to_break_off_a_page(self):
        fresh = Chip()
        fresh.preset_eeprom(self.OLD, 0x20)
        for mask in range(256):
            chip = fresh.copy()
            bus = FailingBus(chip, mask)
            self.assertRaises(PowerFails, Mcp795(bus).write_eeprom, 0x20, self.NEW)
            page = bytes(new if mask >> offset & 1 else old for offset, (old, new) in enumerate(zip(self.OLD, self.NEW)))
            self.assertEqual(chip.eeprom, b'\xff' * 0x20 + page + b'\xff' * 0xD8)
            self.assertEqual(bus.stored, bin(mask).count('1'))
            chip.up()
            self.assertEqual(chip.status, 0)

    def test_the_driver_tries_again(self):
        chip = Chip()
        self.assertRaises(PowerFails, Mcp795(FailingBus(chip, 0x0F)).write_eeprom, 0x20, self.NEW)
        chip.up()
        Mcp795(chip).write_eeprom(0x20, self.NEW)
        self.assertEqual(chip.eeprom[0x20:0x28], self.NEW)


class Copies(unittest.TestCase):
    def test_two_ways_on_from_one_moment(self):
        chip = Chip(spi_hz=None)
        chip.transfer([Code.EEWREN])
        chip.transfer([Code.EEWRITE, 0x10, 0x04, 0xD2])
        chip.advance(ticks=100)
        undisturbed, cut = chip.copy(), chip.copy()
        self.assertEqual(undisturbed, cut)

        self.assertEqual(undisturbed.wait(200), CYCLE - 100)
        self.assertEqual(undisturbed.eeprom[0x10:0x12], b'\x04\xd2')

        self.assertEqual(cut.cut(0b10), 1)
        self.assertEqual(cut.eeprom[0x10:0x12], b'\xff\xd2')

        self.assertEqual((chip.wip, chip.eeprom[0x10:0x12]), (1, b'\xff\xff'))


if __name__ == '__main__':
    unittest.main()
