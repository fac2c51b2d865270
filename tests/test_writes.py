"""The program hands its output on in pieces of 4,096 bytes, however small those are that it is made of."""

import socket
import subprocess
import unittest

import support

PIECE = 4096


def pieces_of(*words: str) -> list[bytes]:
    """What each write of the program takes: its output is a socket that keeps writes apart."""
    end, output = socket.socketpair(socket.AF_UNIX, socket.SOCK_SEQPACKET)
    with end:
        with output:
            child = subprocess.Popen([support.PROGRAM, *words], cwd=support.TOP, stdin=subprocess.DEVNULL, stdout=output)
        pieces = []
        while piece := end.recv(1 << 20):
            pieces.append(piece)
    child.wait()
    return pieces


class Writes(unittest.TestCase):
    """How often the program writes."""

    def test_a_long_answer_is_written_in_whole_pieces(self):
        words = ("ask", "db=examples/answers/eight.lrp", "query=examples/answers/other_eights.lrq")
        pieces = pieces_of(*words)
        self.assertEqual(b"".join(pieces), (support.TOP / "examples/answers/expected/other_eights").read_bytes())
        self.assertGreater(len(pieces), 2)
        self.assertEqual({len(piece) for piece in pieces[:-1]}, {PIECE})
        self.assertLessEqual(len(pieces[-1]), PIECE)

    def test_a_short_answer_is_written_at_once(self):
        self.assertEqual(len(pieces_of("check", "db=examples/bus/bus.lrp")), 1)
