"""A driver for the MCP795XX, small enough to be copied and changed.

It talks to anything that has transfer(bytes) -> bytes, which sends one SPI frame: CS low, the bytes, CS high. On a board
that is a line over spidev, in a test the chip of tools/mcp795.py.
"""
from datetime import datetime

SRWRITE, EEWRITE, EEREAD, EEWRDI, SRREAD, EEWREN = 0x01, 0x02, 0x03, 0x04, 0x05, 0x06
WRITE, READ, UNLOCK, IDWRITE, IDREAD, CLRWDT = 0x12, 0x13, 0x14, 0x32, 0x33, 0x44

HUNDREDTHS, SECONDS, HOURS, CONTROL, WATCHDOG, EVENT_DETECT = 0x00, 0x01, 0x03, 0x08, 0x0A, 0x0B
ALARM_0, ALARM_0_DAY = 0x0C, 0x0F

ST, CALSGN, VBAT, VBATEN, ALM0, WDTEN = 0x80, 0x80, 0x10, 0x08, 0x10, 0x80
ALM0C, ALM0IF = 0x70, 0x08     # the code that compares everything; the flag
EVLIF, EVEN0, EVLDB = 0x40, 0x10, 0x04
WIP = 0x01

NOTHING, LAST_QUARTER, LAST_HALF, EVERYTHING = 0x00, 0x04, 0x08, 0x0C      # what BP1 BP0 protect
PAGE = 8
POLLS = 10000       # at 10 MHz a write cycle takes some 3,100 polls


class WriteFailed(Exception):
    """The chip did not begin a write cycle."""


def bcd(number):
    return number // 10 << 4 | number % 10


def of_bcd(byte):
    return (byte >> 4) * 10 + (byte & 0x0F)


class Mcp795:
    def __init__(self, bus, eeprom_size=256):
        self.bus = bus
        self.eeprom_size = eeprom_size

    def read(self, address, n):
        return self.bus.transfer(bytes([READ, address]) + bytes(n))[2:]

    def write(self, address, data):
        self.bus.transfer(bytes([WRITE, address]) + bytes(data))

    # The clock, in 24-hour form, 2000 to 2099

    def set_time(self, time):
        """Sets the clock, starts it and connects the battery."""
        if not 2000 <= time.year <= 2099:
            raise ValueError('the clock has two digits for a year: 2000 to 2099')
        sign = self.read(HOURS, 1)[0] & CALSGN
        # VBAT written as 1 stays what it is; written as 0 it would clear the time-stamps of the last power failure.
        self.write(HUNDREDTHS, [
            0, ST | bcd(time.second), bcd(time.minute), sign | bcd(time.hour), VBATEN | VBAT | time.isoweekday(),
            bcd(time.day), bcd(time.month), bcd(time.year - 2000)])

    def get_time(self):
        """The time, to the second."""
        for _ in range(3):
            seconds, minutes, hours, day, date, month, year = self.read(SECONDS, 7)
            # The clock goes on while it is read. If the seconds moved, the bytes may be of two times.
            if self.read(SECONDS, 1)[0] == seconds:
                return datetime(2000 + of_bcd(year), of_bcd(month & 0x1F), of_bcd(date), of_bcd(hours & 0x3F),
                                of_bcd(minutes), of_bcd(seconds & 0x7F))
        raise TimeoutError('the seconds moved at every read')

    def set_alarm(self, time):
        """Lets IRQ fall at this time. The year is not compared."""
        control = self.read(CONTROL, 1)[0]
        self.write(CONTROL, [control & ~ALM0])      # a time that is half written shall not match
        self.write(ALARM_0, [
            bcd(time.second), bcd(time.minute), bcd(time.hour), ALM0C | time.isoweekday(), bcd(time.day), bcd(time.month)])
        self.write(CONTROL, [control | ALM0])

    def clear_alarm(self):
        """Lets IRQ rise; tells whether the alarm had come."""
        day = self.read(ALARM_0_DAY, 1)[0]
        self.write(ALARM_0_DAY, [day & ~ALM0IF])
        return bool(day & ALM0IF)

    # The watchdog

    def start_watchdog(self, period):
        """period 0 to 7: 1 ms, 16 ms, 63 ms, 125 ms, 1 s, 16 s, 32 s, 64 s. It counts while the oscillator runs."""
        if not 0 <= period <= 7:
            raise ValueError('the period is 0 to 7')
        self.write(WATCHDOG, [WDTEN | period])

    def feed_watchdog(self):
        self.bus.transfer(bytes([CLRWDT]))

    # The door's switch, on EVLS

    def watch_door(self):
        """Lets IRQ fall when the door has been open for 500 ms. The clock has to run, and the door to be shut before."""
        self.write(EVENT_DETECT, [EVEN0 | EVLDB])

    def door_was_opened(self):
        """Tells whether it was; then IRQ rises, and the next time is waited for."""
        opened = bool(self.read(EVENT_DETECT, 1)[0] & EVLIF)
        if opened:      # a write would end the debounce of a door that has just been opened
            self.watch_door()
        return opened

    # EEPROM, ID, STATUS

    def status(self):
        return self.bus.transfer(bytes([SRREAD, 0]))[1]

    def enable(self):
        self.bus.transfer(bytes([EEWREN]))

    def unlock(self):
        self.bus.transfer(bytes([UNLOCK, 0x55]))
        self.bus.transfer(bytes([UNLOCK, 0xAA]))

    def ready(self):
        """Waits for the end of a write cycle."""
        for _ in range(POLLS):
            if not self.status() & WIP:
                return
        raise TimeoutError('a write cycle does not end')

    def store(self, frame):
        """Sends a write frame after its enable, and waits until it is stored."""
        self.bus.transfer(frame)
        if not self.status() & WIP:
            # The enable is still set, and would serve a later write.
            self.bus.transfer(bytes([EEWRDI]))
            raise WriteFailed('the chip took no write: ' + frame.hex())
        self.ready()

    @staticmethod
    def pages(address, data, size):
        """The data by pages: a frame that goes past the end of its page comes back at the page's start."""
        if not 0 <= address <= size - len(data):
            raise ValueError('%d bytes from %d on do not fit into %d' % (len(data), address, size))
        data = bytes(data)
        while data:
            room = PAGE - address % PAGE
            yield address, data[:room]
            address, data = address + room, data[room:]

    def write_eeprom(self, address, data):
        for start, piece in self.pages(address, data, self.eeprom_size):
            self.ready()
            self.enable()
            self.store(bytes([EEWRITE, start]) + piece)

    def read_eeprom(self, address, n):
        self.ready()
        return self.bus.transfer(bytes([EEREAD, address]) + bytes(n))[2:]

    def protect(self, bp):
        self.ready()
        self.enable()
        self.store(bytes([SRWRITE, bp]))

    def write_id(self, address, data):
        """Each write closes the lock, so each page opens it anew."""
        for start, piece in self.pages(address, data, 16):
            self.ready()
            self.enable()
            self.unlock()
            self.store(bytes([IDWRITE, start]) + piece)

    def read_id(self):
        self.ready()
        return self.bus.transfer(bytes([IDREAD, 0]) + bytes(16))[2:]
