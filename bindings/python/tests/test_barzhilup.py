"""Tests of the Python module: round trips, each refusal with its number, logs held to those of the program, files, and errors.

Needs the built program: in target/bin under the project's root, or in the directory that BARZHILUP_BIN names; and the shared library, as the module does.
"""

import array
import copy
import csv
import doctest
import io
import os
import pickle
import random
import re
import subprocess
import sys
import tempfile
import unittest
import zlib

HERE = os.path.dirname(os.path.abspath(__file__))
ROOT = os.path.normpath(os.path.join(HERE, "..", "..", ".."))
sys.path.insert(0, os.path.join(HERE, ".."))

import barzhilup as b  # noqa: E402

PROGRAM = os.path.join(os.environ.get("BARZHILUP_BIN") or os.path.join(ROOT, "target", "bin"), "barzhilup")
PACKETS = os.path.join(ROOT, "samples", "packets")
PSD = os.path.join(ROOT, "samples", "psd")

#: Mode, stream, bytes of PSD that may be sent.
ROWS = [(0, 0, 128), (1, 0, 21), (2, 0, 21), (3, 0, 21), (1, 1, 0), (2, 1, 0), (3, 1, 0), (10, 0, 128), (10, 1, 0), (13, 0, 21)]


def program(*arguments):
    """Runs the program; answers what it wrote."""
    done = subprocess.run([PROGRAM] + [str(word) for word in arguments], stdout=subprocess.PIPE, stderr=subprocess.PIPE, check=False)
    if done.returncode:
        raise AssertionError(done.stderr.decode())
    return done.stdout


class Case(unittest.TestCase):
    """What the tests share."""

    def setUp(self):
        self.dice = random.Random(20)
        folder = tempfile.TemporaryDirectory()
        self.addCleanup(folder.cleanup)
        self.folder = folder.name

    def file(self, name):
        return os.path.join(self.folder, name)

    def refused(self, number, call, *arguments, **named):
        with self.assertRaises(b.Refusal) as caught:
            call(*arguments, **named)
        self.assertEqual(caught.exception.number, number)
        return caught.exception

    def packets(self, count, most=300):
        return [bytes(self.dice.randrange(256) for _ in range(self.dice.randint(1, most))) for _ in range(count)]


class RoundTrips(Case):
    def test_every_mode(self):
        for mode, stream, psd in ROWS:
            for crc_start in (b.CRC_START, b.CRC_START_OFF_AIR, 77):
                packets = self.packets(100)
                text = bytes(range(psd))
                writer = b.Writer(mode, stream, crc_start)
                receiver = b.Receiver(mode, stream, crc_start)
                came = []
                for pdu in writer.write_all(packets, self.dice.randint(200, 600), text):
                    damaged = bytearray(pdu)
                    for place in self.dice.sample(range(96), self.dice.randint(0, 4)):
                        damaged[place] ^= self.dice.randint(1, 255)
                    log = receiver.receive(damaged)
                    self.assertEqual(bytes(damaged), pdu)
                    self.assertEqual(log.psd(), [text] if psd else [])
                    self.assertEqual(log.notes(), [])
                    came += log.packets()
                self.assertEqual([packet.data for packet in came], packets)
                self.assertEqual([packet.number for packet in came], [k % 64 for k in range(100)])
                self.assertEqual((receiver.delivered, receiver.missing, receiver.last_number), (100, 0, 35))
                self.assertEqual((writer.sent, receiver.held, receiver.held_number), (0, b"", None))

    def test_bytes_stay(self):
        pdu, ended = b.Writer(0).write([b"audio"], 96)
        damaged = bytes([pdu[0] ^ 1]) + pdu[1:]
        self.assertEqual(ended, 1)
        self.assertEqual(b.Receiver(0).receive(damaged).packets(), [b.Packet(0, b"audio")])
        self.assertNotEqual(damaged, pdu)
        self.assertEqual(b.Receiver(0).receive(memoryview(damaged)).packets(), [b.Packet(0, b"audio")])
        view = memoryview(bytearray(damaged))
        b.Receiver(0).receive(view)
        self.assertEqual(bytes(view), pdu)

    def test_every_call_corrects(self):
        pdus = list(b.Writer(0).write_all(self.packets(150), 96))
        self.assertGreater(len(pdus), 128)
        damaged = [bytearray(pdu) for pdu in pdus]
        for pdu in damaged:
            pdu[50] ^= 1
        damaged[129] = bytearray(range(96))
        left = [bytes(pdu) for pdu in damaged[129:]]
        batch = b.Receiver(0).receive_batch(damaged)
        self.assertEqual((batch.taken, batch.refusal.number), (129, 4))
        self.assertEqual([bytes(pdu) for pdu in damaged], pdus[:129] + left)
        for call in (b.Receiver(0).receive, b.read, b.list_pieces, b.correct_header, b.write_parity, lambda pdu: b.Receiver(0).receive_batch([pdu]),
                     lambda pdu: b.Receiver(0).receive_pair(pdu, b""), lambda pdu: b.Receiver(0).receive_pair(pdus[0], pdu)):
            pdu = bytearray(pdus[0])
            pdu[0] ^= 1
            call(pdu)
            self.assertEqual(bytes(pdu), pdus[0])
            call(memoryview(pdu).toreadonly())

    def test_settings(self):
        settings = b.Settings(0, 24, 63, 7, 1, 3, True, b.ProgramType(1, 255), b.Services(1, 2097151))
        pdu, _ = b.Writer(0).write([b"audio"], 96, b"PSD", settings)
        reading = b.list_pieces(pdu)
        self.assertEqual(reading.control, b.ControlWord(0, 0, 0, 0, 24, 63, 7, False, False, 0, 1, True, reading.control.la))
        self.assertEqual(reading.expansion, b.Expansion(1, 3, 95, 1, 255, 1, 2097151))
        self.assertEqual((reading.psd, reading.pieces), (b"PSD", [b.Piece(reading.control.la + 1, b"audio", True)]))
        self.assertEqual(b.list_pieces(pdu, 255).pieces[0].right, False)
        self.assertEqual(b.read(pdu).pieces[0].right, None)
        self.assertEqual(b.read(pdu).pdu, pdu)

    def test_header(self):
        for _ in range(100):
            header = bytes(self.dice.randrange(256) for _ in range(96))
            word = b.write_parity(header)
            self.assertEqual(word, b.parity(header) + header[8:])
            self.assertEqual(b.syndromes(word), bytes(8))
            shares = bytes(8)
            for place in range(8, 96):
                shares = b.add_parity_share(shares, place, header[place])
            self.assertEqual(shares, b.parity(header))
            wrong = self.dice.sample(range(96), 8)
            damaged = bytearray(word)
            for place in wrong:
                damaged[place] ^= self.dice.randint(1, 255)
            self.assertEqual(b.correct_header(bytes(damaged), wrong), (word, 8))
            self.assertEqual(b.correct_header(damaged, wrong).corrected, 8)
            self.assertEqual(bytes(damaged), word)

    def test_snapshots(self):
        packets = self.packets(200)
        receiver, kept = b.Receiver(1, 0, 9, [1, 2]), b.Receiver(1, 0, 9, [1, 2])
        for pdu in b.Writer(1, 0, 9).write_all(packets, 300):
            kept = b.Receiver.load(kept.save())
            self.assertEqual(receiver.receive(pdu), kept.receive(pdu))
            self.assertEqual((receiver.held, receiver.sequence, receiver.services), (kept.held, kept.sequence, kept.services))
        self.assertEqual((kept.delivered, kept.missing, kept.entitled, kept.crc_start), (receiver.delivered, receiver.missing, [1, 2], 9))
        other = receiver.copy()
        other.mark_lost()
        self.assertIsNotNone(receiver.sequence)
        self.assertIsNone(other.sequence)


class Refusals(Case):
    def pdu(self, change, mode=0, stream=0, packets=(b"audio",), length=96, settings=b.Settings()):
        """A PDU with some bytes changed, and the parity of that."""
        pdu = bytearray(b.Writer(mode, stream).write(list(packets), length, settings=settings).pdu)
        change(pdu)
        return b.write_parity(pdu)

    def test_numbers(self):
        receiver = b.Receiver(0)
        self.refused(3, receiver.receive, bytes(95))
        self.refused(3, b.read, bytes(20481))
        self.refused(3, b.Writer(1).write, [b"audio"], 4097)
        self.refused(3, b.Writer(0).write, [b"audio"], 2**32)
        self.refused(4, receiver.receive, bytes(range(96)))
        self.refused(5, b.Writer, 4)
        self.refused(5, b.Receiver, 0, b.ENHANCED)
        self.refused(5, b.Receiver, 255, 255, 0, [9])
        self.refused(6, receiver.receive, b.Writer(10).write([b"audio"], 96).pdu)

        def set_bits(place, bits):
            def change(pdu):
                pdu[place] |= bits
            return change

        self.refused(7, receiver.receive, self.pdu(set_bits(8, 0x80)))
        self.refused(8, receiver.receive, self.pdu(set_bits(11, 2), packets=()))
        self.refused(9, receiver.receive, self.pdu(set_bits(13, 0x80)))
        self.refused(10, b.Writer(0).write, [b"audio"], 96, b"", b.Settings(class_code=2))
        self.assertEqual(self.refused(11, receiver.receive, self.pdu(set_bits(17, 1), packets=[b"one", b"two"])).locator, 1)
        self.refused(12, receiver.receive, self.pdu(lambda pdu: pdu.__setitem__(18, 0), settings=b.Settings(displacement=True)))
        self.refused(14, b.Writer(0).write, [b"audio"], 96, b"", b.Settings(gain=7))
        self.refused(14, b.add_parity_share, bytes(8), 7, 1)
        self.refused(15, b.Writer(0).write, [b""], 96)
        self.refused(15, b.Writer(0).write, [bytes(70000)], 96)
        self.refused(16, b.Writer(0).write, [b"audio"], 512, bytes(129))
        self.refused(17, b.Writer(0).write, [b"audio"], 96, bytes(80))
        self.refused(19, receiver.receive, bytes(96), [1, 1])
        self.refused(19, b.correct_header, bytes(96), range(9))
        one, two = b.Writer(0).write([b"one"], 96).pdu, b.Writer(0).write([b"longer"], 96).pdu
        self.refused(20, receiver.receive_pair, one, two)
        self.refused(21, b.smallest_latency, 1, 0, [])
        self.refused(21, b.try_latency, 1, 0, [64], 0)
        self.refused(21, b.waiting_packets, 1, 0, [0] * 4097, 0)
        self.refused(22, b.Receiver, 0, entitled=[8])
        self.refused(22, b.Receiver, 0, entitled=[1, 1])
        self.refused(23, b.join, [0x41000000], [])
        five = [0x00050001, 0x41110000]
        self.refused(24, b.join, five + five, [])
        self.refused(25, b.Receiver.load, [])
        full = b.Receiver.load([0, 0x30000000, 0x400000FF, 0x6000FFFF, 0x6000FFFF, 0x60000000, 0x60000000, 0x60000000])
        self.refused(27, full.receive, one)
        self.assertEqual(full.delivered, 2**32 - 1)

    def test_nothing_changes(self):
        receiver, writer = b.Receiver(0), b.Writer(0)
        pdu = bytearray(writer.write([bytes(100)], 96).pdu)
        receiver.receive(pdu)
        before = receiver.save(), writer.sequence, writer.number, writer.sent
        noise = bytearray(range(96))
        self.refused(4, receiver.receive, noise)
        self.refused(17, writer.write, [bytes(100)], 96, bytes(80))
        self.assertEqual(noise, bytearray(range(96)))
        try:
            receiver.receive(noise)
        except b.Refusal:
            noise.pop()
        self.assertEqual((receiver.save(), writer.sequence, writer.number, writer.sent), before)

    def test_places_that_cannot_be_written(self):
        pdu = b.Writer(0).write([b"audio"], 96).pdu
        damaged = bytes([pdu[0] ^ 1]) + pdu[1:]
        strided = memoryview(bytearray(192))[::2]
        strided[:] = damaged
        receiver = b.Receiver(0)
        self.assertEqual(receiver.receive(strided).packets(), [b.Packet(0, b"audio")])
        self.assertEqual(bytes(strided), pdu)
        columns = memoryview(bytearray(192)).cast("B", (2, 96))[::-1]
        before = receiver.save()
        for call in (receiver.receive, b.read, b.list_pieces, b.correct_header, b.write_parity, lambda view: receiver.receive_pair(view, pdu),
                     lambda view: receiver.receive_pair(pdu, view), lambda view: receiver.receive_batch([pdu, view])):
            self.assertRaises(TypeError, call, columns)
            self.assertEqual(receiver.save(), before)

    def test_words(self):
        self.assertEqual(b.refusal_text(0), "accepted")
        self.assertEqual(b.refusal_text(28), "unknown")
        self.assertEqual(b.note_text(0), "unknown")
        for number in b.RefusalNumber:
            refusal = b.Refusal(number, 3)
            self.assertEqual(refusal.text, b.refusal_text(number))
            self.assertIn("refused with {}: {}".format(int(number), refusal.text), str(refusal))
            again = pickle.loads(pickle.dumps(refusal))
            self.assertEqual((again.number, again.locator), (refusal.number, refusal.locator))
        self.assertEqual(str(b.Refusal(11, 3)), "refused with 11: locator out of place (k 3)")
        self.assertEqual((len(b.RefusalNumber), b.RefusalNumber.LIST_LENGTH, b.RefusalNumber.PLACE), (27, 13, 14))
        self.assertEqual([cause.text for cause in b.Cause], [b.note_text(number) for number in range(1, 9)])

    def test_numbers_that_do_not_fit(self):
        for call in (lambda: b.Writer(256), lambda: b.Receiver(-1), lambda: b.Receiver(0, crc_start=256), lambda: b.Receiver(0, entitled=[256]),
                     lambda: b.Writer(0).write([b"a"], 96, b"", b.Settings(gain=256)), lambda: b.Writer(0).write([b"a"], -1),
                     lambda: b.Receiver(0).receive(bytes(96), [256]), lambda: b.parity(bytes(95)), lambda: b.crc8(b"", 256),
                     lambda: b.add_parity_share(bytes(7), 8, 1), lambda: b.try_latency(1, 0, [1], 256), lambda: b.join([2**32], []),
                     lambda: b.Log([-1]), lambda: b.Log([2**32]), lambda: b.Joined([2**32]), lambda: b.Receiver.load([2**32])):
            self.assertRaises(ValueError, call)


class Types(Case):
    """What is of another type than is meant is a TypeError, before anything is done."""

    def test_packets(self):
        writer, file = b.Writer(0), io.BytesIO()
        for packets in (b"audio", bytearray(b"audio"), memoryview(b"audio"), array.array("B", b"audio"), b"", "audio", [5], [None], ["audio"], [[1, 2]], 5,
                        [1.5], [array.array("I", [1])]):
            self.assertRaises(TypeError, writer.write, packets, 1024)
            self.assertRaises(TypeError, lambda: list(writer.write_all(packets, 1024)))
            self.assertRaises(TypeError, b.write_records, file, packets)
            self.assertRaises(TypeError, b.Receiver(0).receive_batch, packets)
            self.assertRaises(TypeError, lambda: list(b.Receiver(0).log(packets)))
        self.assertRaises(TypeError, writer.write_all, b"audio", 1024)
        self.assertRaises(TypeError, writer.write_all, [b"audio"], 1024, "PSD")
        self.assertRaises(TypeError, b.Receiver(0).log, b"audio")
        self.assertRaises(TypeError, lambda: list(writer.write_all([b"one", None, b"two"], 1024)))
        self.assertRaises(TypeError, writer.write, [b"audio"], 1024, 4)
        self.assertRaises(TypeError, writer.write, [b"audio"], 1024, "PSD")
        self.assertEqual((writer.sequence, writer.number, file.getvalue()), (0, 0, b""))
        for packet in (bytearray(b"audio"), memoryview(b"audio"), array.array("B", b"audio")):
            self.assertEqual(writer.write((one for one in [packet]), 96).ended, 1)

    def test_bytes(self):
        pdu = b.Writer(0).write([b"audio"], 96).pdu
        for wrong in (96, "x" * 96, [0] * 96, None, 1.5, array.array("I", bytes(96))):
            receiver = b.Receiver(0)
            for call in (b.crc8, b.syndromes, b.parity, b.write_parity, b.correct_header, b.read, b.list_pieces, receiver.receive):
                self.assertRaises(TypeError, call, wrong)
            for call in (b.choose, receiver.receive_pair):
                self.assertRaises(TypeError, call, wrong, pdu)
                self.assertRaises(TypeError, call, pdu, wrong)
            self.assertRaises(TypeError, b.add_parity_share, wrong, 8, 1)
            self.assertEqual(receiver.save(), b.Receiver(0).save())
        self.assertRaises(TypeError, b.add_parity_share, 8, 8, 1)

    def test_numbers(self):
        pdu = b.Writer(0).write([b"audio"], 96).pdu
        for wrong in (0.9, 1.0, "1", b"1", None, [1]):
            for call in (lambda: b.Receiver(wrong), lambda: b.Receiver(1, wrong), lambda: b.Receiver(0, 0, wrong), lambda: b.Receiver(0, entitled=[wrong]),
                         lambda: b.Writer(wrong), lambda: b.Writer(1, wrong), lambda: b.Writer(0, 0, wrong), lambda: b.Writer(0).write([b"a"], wrong),
                         lambda: b.Writer(0).write_all([b"a"], wrong), lambda: b.crc8(b"", wrong), lambda: b.add_parity_share(bytes(8), wrong, 1),
                         lambda: b.add_parity_share(bytes(8), 8, wrong), lambda: b.Receiver(0).receive(pdu, [wrong]), lambda: b.correct_header(pdu, [wrong]), lambda: b.list_pieces(pdu, wrong),
                         lambda: b.smallest_latency(1, 0, [wrong]), lambda: b.try_latency(1, 0, [3], wrong), lambda: b.waiting_packets(wrong, 0, [3], 0),
                         lambda: b.join([wrong], []), lambda: b.join([], [wrong]), lambda: b.Receiver.load([wrong]), lambda: b.Log([wrong]),
                         lambda: b.Joined([wrong]), lambda: b.refusal_text(wrong), lambda: b.note_text(wrong)):
                self.assertRaises(TypeError, call)
        for words in (b"\0\0\0\0", bytearray(4), memoryview(bytes(4)), "0000", 5):
            for call in (b.Log, b.Joined, b.Receiver.load, lambda words: b.join(words, []), lambda words: b.join([], words)):
                self.assertRaises(TypeError, call, words)
        self.assertRaises(TypeError, b.Receiver(0).receive, pdu, "89")
        self.assertEqual(b.Receiver(0).receive(pdu, b"\x08\x09").packets(), [b.Packet(0, b"audio")])

    def test_settings(self):
        for settings in (b.Settings(gain=1.5), b.Settings(class_code=0.0), b.Settings(program="0"), b.Settings(program=""), b.Settings(displacement="no"),
                         b.Settings(program_type=(0, "1")), b.Settings(services=(0, 1.5)), b.Settings(program_type=7), None, (0, 0)):
            writer = b.Writer(0)
            self.assertRaises(TypeError, writer.write, [b"audio"], 96, b"", settings)
            self.assertRaises(TypeError, writer.write_all, [b"audio"], 96, b"", settings)
            self.assertEqual(writer.number, 0)
        self.assertRaises(ValueError, b.Writer(0).write, [b"audio"], 96, b"", b.Settings(program_type=()))


class Copies(Case):
    def test_independent(self):
        pdus = list(b.Writer(0).write_all([bytes([k]) * 300 for k in range(20)], 200))
        others = list(b.Writer(0).write_all([bytes([99]) * 300 for k in range(20)], 200))
        for copied in (copy.copy, copy.deepcopy, b.Receiver.copy, lambda receiver: pickle.loads(pickle.dumps(receiver))):
            receiver, alone = b.Receiver(0), b.Receiver(0)
            for one in (receiver, alone):
                one.receive_batch(pdus[:5])
            other = copied(receiver)
            self.assertEqual(other.save(), receiver.save())
            self.assertTrue(receiver.held)
            for mine, theirs in zip(pdus[5:], others[5:]):
                other.receive(theirs)
                self.assertEqual(receiver.receive(mine), alone.receive(mine))

    def test_of_a_subclass(self):
        class Named(b.Receiver):
            """A receiver with a name."""

        receiver = Named(1, entitled=[3])
        receiver.name = "roof"
        for other in (copy.copy(receiver), receiver.copy(), copy.deepcopy(receiver)):
            self.assertEqual((type(other), other.name, other.entitled, other.save()), (Named, "roof", [3], receiver.save()))

    def test_writer(self):
        writer = b.Writer(0)
        writer.write([bytes(300)], 200)
        for other in (copy.copy(writer), copy.deepcopy(writer), pickle.loads(pickle.dumps(writer))):
            before = writer.sequence, writer.number, writer.sent
            self.assertEqual((other.sequence, other.number, other.sent), before)
            other.write([bytes(300)], 200)
            self.assertEqual((writer.sequence, writer.number, writer.sent), before)


class Logs(Case):
    def test_malformed(self):
        for words, place in (([0x41110000], 0), ([0xC0060000, 0x00050004, 0x43112233], 1), ([0x00050004, 0x42112200, 0x42334400], 0),
                             ([0x00050001, 0x40000000], 0), ([0xC0090000], 0), ([0xC0000000], 0)):
            with self.assertRaises(b.MalformedLog) as caught:
                list(b.Log(words))
            self.assertEqual(caught.exception.place, place)

    def test_what_join_refuses(self):
        packet, psd, notes = [0x00050004, 0x43112233, 0x41440000], [0x80000005, 0x43505344, 0x42404100], [0xC0020007, 0xC0060000]
        refused = others = 0
        for words in ([0x00050000], [0x20050001, 0x41110000], [0x80000000], [0x90000001, 0x41110000], [0x00050001, 0x41110001], [0x00050002, 0x42111101],
                      [0x00050001, 0x45110000], [0x00401001, *[0x43000000] * 1365, 0x42000000], [0x00001001, *[0x43000000] * 1365, 0x42000000]):
            self.refused(23, b.join, words, [])
            self.assertRaises(b.MalformedLog, list, b.Log(words))
        for _ in range(3000):
            words = sum((self.dice.choice([packet, psd, notes, [0x00060001, 0x41010000]]) for _ in range(3)), [])
            place = self.dice.randrange(len(words))
            words[place] ^= self.dice.choice([1 << self.dice.randrange(32), self.dice.randrange(2**32)])
            try:
                b.join(words, [])
                number = 0
            except b.Refusal as refusal:
                number = refusal.number
            try:
                self.assertEqual(len(b.Log(words)), len(list(b.Log(words))))
                self.assertNotEqual(number, 23, words)
            except b.MalformedLog as fault:
                refused += 1
                if number != 23:
                    note = words[fault.place]
                    cause, piece = note >> 16 & 0x3FFF, note & 0xFFFF
                    self.assertEqual(note >> 30, 3, words)
                    self.assertTrue(not 1 <= cause <= 8 or (cause in (1, 4, 6, 8) and piece), words)
                    others += 1
        self.assertTrue(1000 < refused < 2900 and 10 < others)

    def test_lengths_and_sums(self):
        words = [0x80000003, 0x43505344, 0x00050004, 0x43112233, 0x41440000, 0xC0020007]
        log = b.Log(words)
        self.assertEqual((len(log), bool(log), len(b.Log()), bool(b.Log())), (3, True, 0, False))
        self.assertEqual(log + b.Log([0xC0060000]), b.Log(words + [0xC0060000]))
        self.assertEqual(sum([log, log], b.Log()), b.Log(words + words))
        self.assertEqual(log, b.Log(words))
        self.assertRaises(TypeError, lambda: log + words)
        self.assertRaises(b.MalformedLog, len, b.Log([0x41110000]))

    def test_joined_words(self):
        core, enhanced = [0x00060001, 0x41220000], [0x20060001, 0x41330000]
        self.assertEqual(list(b.Joined(core + enhanced + core)), [b.JoinedPacket(6, b"\x22", b"\x33"), b.JoinedPacket(6, b"\x22", None)])
        for words, place in (([0xC0060000], 0), (core + [0x80000001, 0x41000000], 2), (core[:1], 0), (core + enhanced[:1], 2), (enhanced, 0),
                             (core + enhanced + enhanced, 4), (core + [0x20070001, 0x41330000], 2), ([0x00060000], 0), ([0x41220000], 0),
                             ([0x00460001, 0x41220000], 0)):
            with self.assertRaises(b.MalformedLog) as caught:
                list(b.Joined(words))
            self.assertEqual(caught.exception.place, place)
            self.assertEqual(str(caught.exception), "not two logs joined: the entry at word {} does not fit".format(place))
            again = pickle.loads(pickle.dumps(caught.exception))
            self.assertEqual((str(again), again.place), (str(caught.exception), place))

    def test_entries(self):
        words = [0x80000003, 0x43505344, 0x00050004, 0x43112233, 0x41440000, 0xC0020007, 0xC0060000]
        log = b.Log(words)
        self.assertEqual(list(log), [b.Psd(b"PSD"), b.Packet(5, b"\x11\x22\x33\x44"), b.Note(b.Cause.CRC, 7), b.Note(b.Cause.LOST, None)])
        self.assertEqual(log, b.Log(words))
        self.assertNotEqual(log, b.Log())
        self.assertEqual(eval(repr(log), {"Log": b.Log}), log)

    def test_join(self):
        core = [0x00050001, 0x41110000, 0x00060001, 0x41220000]
        joined = b.join(b.Log(core), [0x00060001, 0x41330000, 0x00070001, 0x41440000])
        self.assertEqual(list(joined), [b.JoinedPacket(5, b"\x11", None), b.JoinedPacket(6, b"\x22", b"\x33")])
        self.assertEqual(joined.words[4], 0x00060001 | b.JOINED_ENHANCED)
        self.assertEqual(list(b.join([], core)), [])

    def test_latencies(self):
        self.assertEqual(b.try_latency(1, 0, [3, 5], 0), (8, 1, 3, 5))
        self.assertEqual(b.try_latency(1, 0, [3, 5], 1), (8, 0, None, 6))
        self.assertEqual(b.waiting_packets(1, 0, [3, 5], 1), [3, 3, 3, 2, 6, 5, 4, 3])
        self.assertEqual(b.smallest_latency(1, 0, [3, 5]), 1)
        self.assertIsNone(b.smallest_latency(1, 0, [0] * 8))

    def test_choose(self):
        pdu = b.Writer(0).write([b"audio"], 96).pdu
        one, two = bytearray(pdu), bytearray(pdu)
        one[9] ^= 1
        self.assertIs(b.choose(one, two), two)
        self.assertIs(b.choose(two, one), two)
        self.assertIsNone(b.choose(b"", b"short"))


class Programs(Case):
    """The module beside the program, on the sample packets and on damaged drives."""

    def drive(self, seed, generate=(), channel=()):
        """A drive: the PDUs that come, in a file of this name."""
        sent, came = self.file("sent{}".format(seed)), self.file("came{}".format(seed))
        if not os.path.exists(sent):
            program("generate", "--in", PACKETS, "--out", sent, *generate)
        program("channel", "--in", sent, "--out", came, "--seed", seed, *channel)
        return came

    def held_to(self, came, receiver, *options, logs=None):
        """The words and the CSV of the program's log are those of the receiver."""
        words, lines, pdus = b.Log(), [], 0
        for logged in receiver.log(b.read_records(came)) if logs is None else logs:
            words.words.extend(logged.log.words)
            number = {"refused": logged.refusal and int(logged.refusal.number)}.get(logged.kind)
            lines.append((logged.place, logged.kind, number, receiver.delivered, receiver.missing))
            for entry in logged.log:
                if isinstance(entry, b.Packet):
                    lines.append((logged.place, "packet", entry.number, len(entry.data), "{:08x}".format(zlib.crc32(entry.data))))
                elif isinstance(entry, b.Psd):
                    lines.append((logged.place, "psd", None, len(entry.data), "{:08x}".format(zlib.crc32(entry.data))))
                else:
                    lines.append((logged.place, "note", entry.piece or 0, entry.cause.text))
            pdus += 1
        self.assertEqual(b.read_words(io.BytesIO(program("log", "--in", came, "--format", "words", *options))), words.words)
        table = b.read_csv(io.StringIO(program("log", "--in", came, "--format", "csv", *options).decode()))
        self.assertTrue(table.whole)
        told = []
        for line in table.lines:
            if line.kind in ("received", "lost", "refused"):
                told.append((line.pdu, line.kind, line.refusal, line.delivered, line.missing))
            elif line.kind == "note":
                told.append((line.pdu, line.kind, line.piece or 0, line.cause))
            else:
                told.append((line.pdu, line.kind, line.packet, line.length, line.crc32))
        self.assertEqual(told, lines)
        self.assertGreater(pdus, 100)
        return words

    def test_generate(self):
        with open(PSD, "rb") as file:
            psd = file.read()
        for mode, stream, length in ((0, 0, 512), (1, 0, 400), (10, 1, 1000)):
            some = psd[:21] if stream == 0 else b""
            name = self.file("psd{}".format(mode))
            with open(name, "wb") as file:
                file.write(some)
            out = program("generate", "--in", PACKETS, "--mode", mode, "--stream", stream, "--length", length, "--crc-start", 255, "--latency", 3,
                          *(["--psd", name] if some else []))
            writer = b.Writer(mode, stream, 255)
            pdus = writer.write_all(b.read_records(PACKETS), length, some, b.Settings(latency=3))
            mine = io.BytesIO()
            b.write_records(mine, pdus)
            self.assertEqual(mine.getvalue(), out)

    def test_drives(self):
        for seed, channel in ((20, ()), (1, ("--loss", 200, "--bytes", 8)), (2, ("--bursts", 300, "--burst", 9)), (3, ("--bytes", 96, "--damage", 900))):
            came = self.drive(seed, ("--length", 300, "--psd", PSD), channel)
            self.held_to(came, b.Receiver(0))

    def test_registers_and_modes(self):
        for seed, mode, stream in ((4, 1, 0), (5, 3, 1), (6, 10, 1), (7, 13, 0)):
            came = self.drive(seed, ("--mode", mode, "--stream", stream, "--length", 400, "--crc-start", 255), ("--bursts", 50))
            self.held_to(came, b.Receiver(mode, stream, 255), "--mode", mode, "--stream", stream, "--crc-start", 255)

    def test_entitled(self):
        paid = ("--mode", 1, "--length", 300, "--class", 1, "--program", 3, "--access", 1, "--services", 1)
        came = self.drive(8, paid)
        words = self.held_to(came, b.Receiver(1, entitled=[0, 2]), "--mode", 1, "--entitled", "0,2")
        self.assertIn(b.Note(b.Cause.WITHHELD, None), words.notes())
        self.held_to(came, b.Receiver(1, entitled=[3]), "--mode", 1, "--entitled", "3")
        self.held_to(came, b.Receiver(1, entitled=[]), "--mode", 1, "--entitled", "none")

    def test_marks(self):
        marks = self.file("marks")
        came = self.drive(9, ("--length", 300), ("--bytes", 8, "--marks", marks))
        receiver = b.Receiver(0)

        def logs():
            for place, (pdu, places) in enumerate(zip(b.read_records(came), b.read_records(marks))):
                if not pdu:
                    yield b.Logged(place, "lost", None, receiver.mark_lost())
                else:
                    yield b.Logged(place, "received", None, receiver.receive(pdu, places))

        self.held_to(came, receiver, "--marks", marks, logs=logs())

    def test_pairs(self):
        options = ("--loss", 100, "--bursts", 300)
        first = self.drive(10, ("--length", 300), options)
        os.rename(self.file("sent10"), self.file("sent11"))
        second = self.drive(11, (), options)
        receiver = b.Receiver(0)

        def logs():
            for place, (one, two) in enumerate(zip(b.read_records(first), b.read_records(second))):
                if one or two:
                    yield b.Logged(place, "received", None, receiver.receive_pair(one, two))
                else:
                    yield b.Logged(place, "lost", None, receiver.mark_lost())

        self.held_to(first, receiver, "--second", second, logs=logs())

    def test_batches(self):
        came = self.drive(12, ("--length", 300), ("--bytes", 5))
        alone, words = b.Receiver(0), b.Log()
        receiver, together = b.Receiver(0), b.Log()
        pdus = list(b.read_records(came))
        for logged in alone.log(pdus):
            words.words.extend(logged.log.words)
        stops = 0
        while pdus:
            batch = receiver.receive_batch(pdus[:8])
            together.words.extend(batch.log.words)
            pdus = pdus[batch.taken:]
            if batch.refusal is not None:
                stops += 1
                self.assertEqual(batch.refusal.number, 4 if pdus[0] else 3)
                together.words.extend(receiver.mark_lost().words)
                pdus = pdus[1:]
        self.assertGreater(stops, 10)
        self.assertEqual((together, receiver.save()), (words, alone.save()))
        self.assertEqual(receiver.receive_batch([]), (0, b.Log(), None))
        whole = b.Receiver(0).receive_batch(list(b.read_records(self.file("sent12"))))
        self.assertEqual((whole.taken, whole.refusal), (len(list(b.read_records(self.file("sent12")))), None))
        self.assertEqual([packet.data for packet in whole.log.packets()], list(b.read_records(PACKETS)))

    def test_join(self):
        packets = self.file("packets")
        b.write_records(packets, ["{:050d}".format(k).encode() for k in range(960)])
        logs = []
        for stream, length, seed in ((0, 224, 3), (1, 1710, 5)):
            sent, came, log = (self.file(name + str(stream)) for name in ("s", "c", "l"))
            program("generate", "--in", packets, "--mode", 1, "--stream", stream, "--length", length, "--out", sent)
            program("channel", "--in", sent, "--seed", seed, "--out", came)
            program("log", "--in", came, "--mode", 1, "--stream", stream, "--format", "records", "--out", log)
            logs.append([list(b.read_words(record)) for record in b.read_records(log)])
        core, enhanced = logs
        words, both = [], 0
        for frame in range(len(enhanced)):
            joined = b.join(sum(core[8 * frame:8 * frame + 8], []), enhanced[frame])
            words += joined.words
            both += sum(packet.enhanced is not None for packet in joined)
        out = program("join", "--in", self.file("l0"), "--enhanced", self.file("l1"), "--format", "words")
        self.assertEqual(list(b.read_words(io.BytesIO(out))), words)
        self.assertGreater(both, 500)

    def test_latency(self):
        counts = [3, 5, 4, 4, 2, 6, 4, 4]
        table = program("latency", "--mode", 1, "--counts", ",".join(map(str, counts))).decode()
        for latency in range(8):
            trial = b.try_latency(1, 0, counts, latency)
            dry = "-" if trial.first_dry is None else str(trial.first_dry)
            self.assertIn([str(latency), str(trial.dry), dry, str(trial.most_waiting)], [line.split() for line in table.splitlines()])
        self.assertIn("smallest latency without a dry tick: {}".format(b.smallest_latency(1, 0, counts)), table)

    def test_snapshot_of_the_program(self):
        came = self.drive(13, ("--length", 300))
        state = self.file("state")
        program("log", "--in", came, "--out", self.file("log"), "--save", state)
        receiver = b.Receiver(0)
        for _ in receiver.log(b.read_records(came)):
            pass
        saved = next(b.read_records(state))
        self.assertEqual(list(b.read_words(saved)), receiver.save())


class Files(Case):
    def test_records(self):
        name = self.file("records")
        self.assertEqual(b.write_records(name, [b"one", b"", b"\0" * 65535]), 3)
        self.assertEqual(list(b.read_records(name)), [b"one", b"", b"\0" * 65535])
        self.assertRaises(FileExistsError, b.write_records, name, [])
        self.assertRaises(ValueError, b.write_records, io.BytesIO(), [bytes(65536)])
        for cut in (b"\3", b"\3\0on", b"\1\0a\1\0"):
            self.assertRaises(b.MalformedFile, list, b.read_records(io.BytesIO(cut)))
        self.assertEqual(list(b.read_records(io.BytesIO(b""))), [])
        self.assertRaises(b.MalformedFile, b.read_words, io.BytesIO(b"\1\2\3"))

    HEAD = "pdu,kind,copy,corrected,refusal,packet,length,piece,note,cause,delivered,missing,crc32,text,pdus\n"
    ROWS = ("0,received,first,1,,,96,,,,1,0,,,\n0,packet,,,,5,4,,,,,,0badf00d,,\n0,psd,,,,,14,,,,,,8c736521,\"Song, by \"\"me\"\"\",\n"
            "1,refused,,,11,,96,,,locator out of place (k 1),1,0,,,\n1,note,,,,,,,6,lost,,,,,\n1,note,,,,,,0,2,wrong CRC,,,,,\n2,lost,,,,,,,,,1,0,,,\n")
    END = ",end,,,,,,,,whole,,,,,3\n"
    #: Lines of an older log that say the same but for what it has no columns for.
    OLDER = ("pdu,kind,number,length,cause,delivered,missing\n0,received,1,96,first copy,1,0\n0,packet,5,4,,,\n0,psd,,14,,,\n"
             "1,refused,11,96,locator out of place (k 1),1,0\n1,note,0,,lost,,\n1,note,0,,wrong CRC,,\n2,lost,,,,1,0\n,end,3,,whole,,\n")

    def test_csv(self):
        head, rows = self.HEAD, self.ROWS
        table = b.read_csv(io.StringIO(head + rows + self.END))
        self.assertTrue(table.whole)
        self.assertEqual(table.lines, [
            b.Line(0, "received", copy="first", corrected=1, length=96, delivered=1, missing=0),
            b.Line(0, "packet", packet=5, length=4, crc32="0badf00d"),
            b.Line(0, "psd", length=14, crc32="8c736521", text='Song, by "me"'),
            b.Line(1, "refused", refusal=11, length=96, cause="locator out of place (k 1)", delivered=1, missing=0),
            b.Line(1, "note", note=6, cause="lost"),
            b.Line(1, "note", piece=0, note=2, cause="wrong CRC"),
            b.Line(2, "lost", delivered=1, missing=0)])
        self.assertEqual(b.read_csv(io.StringIO(head + rows)), b.Csv(table.lines, False))
        self.assertEqual(b.read_csv(io.StringIO(head + rows + "3,rece")), b.Csv(table.lines, False))
        older = b.read_csv(io.StringIO(self.OLDER))
        self.assertEqual(older, b.Csv([line._replace(crc32=None, text=None) for line in table.lines], True))
        lost = "{},lost,,,,,,,,,{},{},,,\n".format
        for wrong in ("", "pdu,kind\n", head + "0,other,,,,,,,,,0,0,,,\n", head + "0\n", head + lost("x", 1, 0), head + rows + ",end,,,,,,,,whole,,,,,2\n",
                      head + ",end,,,,,,,,whole,,,,,0\n" + lost(0, 0, 0), head + lost(0, 2, 0) + lost(1, 1, 0), head + lost(5, 0, 0) + lost(3, 0, 0),
                      head + rows + "2,packet,,,,99,99999,,,,,,0badf00d,,\n", head + "0,received,,-5,,,96,,,,1,0,,,\n", head + "0,received,,1_000,,,96,,,,1,0,,,\n",
                      head + "0,received,,0,,,{},,,,1,0,,,\n".format("9" * 200000), head + lost(0, 1, "0\0"), head + '0,lost,,,"' + "x" * 200000 + "\n",
                      head + "0,received,,\u0663,,,96,,,,1,0,,,\n", head + lost(0, "", ""), head + lost(0, 0, 0) + "0,note,,,,,,,6,lost,1,0,,,\n",
                      head + lost(0, 0, 0) + "0,note,,,,,,0,,lost,,,,,\n", head + lost(0, 0, 0)[:-1] + ",,x\n", head + "\n"):
            with self.assertRaises(b.MalformedFile) as caught:
                b.read_csv(io.StringIO(wrong))
            self.assertTrue(str(caught.exception))
        older = "pdu,kind,number,length,cause\n0,refused,11,96,one, two\n0,note,0,,lost\n,end,1,,whole\n"
        lines = [b.Line(0, "refused", refusal=11, length=96, cause="one, two"), b.Line(0, "note", note=6, cause="lost")]
        self.assertEqual(b.read_csv(io.StringIO(older)), b.Csv(lines, True))
        self.assertEqual(b.read_csv(io.BytesIO(older.replace("\n", "\r\n").encode())), b.Csv(lines, True))

    def test_csv_that_a_spreadsheet_saved(self):
        text = self.HEAD + self.ROWS + self.END
        wanted, rows = b.read_csv(io.StringIO(text)), list(csv.reader(io.StringIO(text)))
        for separator in ",;\t":
            for quoting in (csv.QUOTE_ALL, csv.QUOTE_MINIMAL, csv.QUOTE_NONNUMERIC):
                for more in (-1, 0, 4):
                    saved = io.StringIO(newline="")
                    for row in rows:
                        row = row + [""] * max(more, 0)
                        while more < 0 and not row[-1]:
                            row.pop()
                        csv.writer(saved, delimiter=separator, quoting=quoting, lineterminator="\r\n").writerow(row)
                    self.assertEqual(b.read_csv(io.BytesIO(saved.getvalue().encode("utf-8-sig"))), wanted)

    def test_csv_as_coverage_takes_it(self):
        older = "pdu,kind,number,length,cause\n0,received,1,96,\n0,packet,5,4,\n1,lost,,,\n,end,2,,whole\n"
        texts = [self.HEAD + self.ROWS + self.END, self.HEAD + self.ROWS, self.OLDER, older, (self.HEAD + self.ROWS + self.END).replace(",", ";")]
        name, taken, wholes = self.file("log.csv"), 0, 0
        for _ in range(800):
            text = bytearray(self.dice.choice(texts).encode())
            for _ in range(self.dice.randint(0, 2)):
                at = self.dice.randrange(len(text))
                at = self.dice.choice([at, max(text.rfind(b"\n", 0, at), 0)])
                other = self.dice.choice([b"", b"0", b"2", b"64", b",", b";", b"\t", b"\n", b"\r", b"\0", b"-", b"_", b" ", b'"', b"\xff", b"x" * 500])
                text[at:at + self.dice.randint(0, 2)] = other
            if not self.dice.randint(0, 3):
                del text[self.dice.randrange(len(text)):]
            with open(name, "wb") as file:
                file.write(text)
            done = subprocess.run([PROGRAM, "coverage", "--in", name], stdout=subprocess.DEVNULL, stderr=subprocess.PIPE, check=False)
            try:
                table = b.read_csv(name)
            except b.MalformedFile as fault:
                self.assertEqual(done.returncode, 1, (text, fault, done.stderr))
                place = str(fault).split(":")[0]
                self.assertTrue(place == "the file is empty" or place.encode() + b":" in done.stderr, (text, fault, done.stderr))
                continue
            self.assertEqual(done.returncode, 0, (text, done.stderr))
            self.assertEqual(table.whole, b"has no last line" not in done.stderr, text)
            self.assertIn("PDUs {}:".format(sum(line.kind in ("received", "lost", "refused") for line in table.lines)).encode(), done.stderr)
            taken, wholes = taken + 1, wholes + table.whole
        self.assertGreater(min(taken - wholes, wholes, 800 - taken), 50)

    def test_short_reads_and_writes(self):
        records = [b"one", b"", bytes(range(256)) * 255]

        class Slow(io.RawIOBase):
            """A file that hands out and takes a few bytes at a time."""

            def __init__(self, data=b""):
                super().__init__()
                self.bytes = io.BytesIO(data)

            def readable(self):
                return True

            def writable(self):
                return True

            def readinto(self, room):
                part = self.bytes.read(min(len(room), 1000 if self.bytes.tell() > 20 else 1))
                room[:len(part)] = part
                return len(part)

            def write(self, data):
                return self.bytes.write(bytes(data)[:1000])

        slow = Slow()
        self.assertEqual(b.write_records(slow, records), 3)
        whole = slow.bytes.getvalue()
        self.assertEqual(list(b.read_records(io.BytesIO(whole))), records)
        self.assertEqual(list(b.read_records(Slow(whole))), records)
        self.assertRaises(b.MalformedFile, list, b.read_records(Slow(whole[:-1])))
        self.assertEqual(list(b.read_words(Slow(bytes(4000)))), [0] * 1000)

    def test_a_record_that_cannot_be_written(self):
        name = self.file("records")
        for wrong in ([b"one", bytes(65536)], [b"one", 5], (b"one", None)):
            self.assertRaises((ValueError, TypeError), b.write_records, name, wrong)
            self.assertFalse(os.path.exists(name))
        self.assertRaises(ValueError, b.write_records, name, iter([b"one", bytes(65536)]))
        self.assertEqual(list(b.read_records(name)), [b"one"])


class Module(Case):
    def test_documentation(self):
        self.assertEqual(doctest.testmod(b).failed, 0)
        for name in b.__all__:
            thing = getattr(b, name)
            if callable(thing) and name != "Entry":
                self.assertTrue(thing.__doc__, name)

    def test_version(self):
        self.assertEqual(b.library_version(), b.__version__)

    def test_example(self):
        example = os.path.join(HERE, "..", "examples", "drive.py")
        out = subprocess.check_output([sys.executable, example], universal_newlines=True)
        with open(os.path.join(ROOT, "docs", "USING.md"), encoding="utf-8") as file:
            page = file.read()
        self.assertTrue("".join("    {}\n".format(line) for line in out.splitlines()) in page, "docs/USING.md has what the example prints")
        shown = page.split("logs the rest:\n")[1].split("It prints\n")[0]
        with open(example, encoding="utf-8") as file:
            lines = [line.split("  # noqa")[0] for line in file.read().splitlines()]
        self.assertEqual([line for line in shown.splitlines() if line[4:] not in lines], [])

    def test_sentences(self):
        """Each chapter of docs/USING.md with C's, Rust's and Python's calls has sentences for Python, and what stands there can be called."""
        with open(os.path.join(ROOT, "docs", "USING.md"), encoding="utf-8") as file:
            chapters = [part.split("\n", 1) for part in file.read().split("\n## ")]
        self.assertEqual([name for name, _ in chapters if name.endswith("in C and Rust")], [])
        told = {name.split(",")[0]: re.findall("`((?:barzhilup|receiver)[.].*?)`", text.split("\nIn Python ")[1])
                for name, text in chapters if name.endswith(", in C, Rust and Python")}
        self.assertEqual(len(told), 10)
        one, other = list(b.Writer(0).write_all([b"audio", b"more"] * 9, 100))[:2]
        older = [word for word in b.Receiver(0).save() if word >> 28 != 4]
        core = [0x00050001, 0x41110000]
        for name, expressions in told.items():
            self.assertTrue(expressions, name)
            for expression in expressions:
                names = {"barzhilup": b, "receiver": b.Receiver(0), "pdu": one, "other": other, "first": one, "second": one, "piece": b"audio", "words": older,
                         "parity": bytes(8), "header": one, "core": core, "enhanced": core}
                eval(expression, names)
        self.assertEqual(b.Receiver.load(older).entitled, [])
        self.assertEqual(eval(told["A receiver that goes on after a restart"][2], names).save(), b.Receiver(0).save())
        names["receiver"] = full = b.Receiver.load([0, 0x30000000, 0x400000FF, 0x6000FFFF, 0x6000FFFF, 0x60000000, 0x60000000, 0x60000000])
        self.refused(27, full.receive, one)
        on = eval(told["Packets delivered and missing"][3], names)
        on.receive(one)
        self.assertGreater(on.delivered, 0)

    def test_no_library(self):
        done = subprocess.run([sys.executable, "-c", "import barzhilup"], cwd=os.path.join(HERE, ".."), env={"BARZHILUP_LIB": self.folder, "PATH": ""},
                              stderr=subprocess.PIPE, check=False)
        self.assertEqual(done.returncode, 1)
        self.assertIn(b"scripts/libraries", done.stderr)


if __name__ == "__main__":
    unittest.main()
