"""The command `python3 -m gas_day`: what it prints, where, and its exit status."""

import os
import subprocess
import sys
import tempfile
import unittest
from pathlib import Path

import gas_day
from worked import FILE_A, FILE_A_IN_MWH, HEADER

PRICES = ["--excess-price", "20000", "--shortfall-price", "25000"]
GIVEN = ["--length", "24", *PRICES]
HEADING = b"g,before,q,money,after\r\n"
CASE_A = HEADING + b"0,20000000,3333333,66666660000,16666667\r\n1,10000000,1666667,33333340000,8333333\r\n2,-3000000,0,0,-3000000\r\n"


class Shell(unittest.TestCase):
    def setUp(self):
        folder = tempfile.TemporaryDirectory()
        self.addCleanup(folder.cleanup)
        self.folder = Path(folder.name)

    def file(self, name, content):
        path = self.folder / name
        path.write_bytes(content)
        return str(path)

    def run_with(self, *arguments, stdin=b""):
        environment = {**os.environ, "PYTHONPATH": str(Path(gas_day.__file__).parent), "COLUMNS": "200"}
        command = [sys.executable, "-B", "-m", "gas_day", *arguments]
        return subprocess.run(command, input=stdin, capture_output=True, env=environment, check=False)

    def settled(self, *arguments, stdin=b"", printed):
        run = self.run_with("settle", *arguments, stdin=stdin)
        self.assertEqual((run.stdout, run.stderr, run.returncode), (printed, b"", 0))

    def failed(self, *arguments, stdin=b"", status, words, printed=b""):
        run = self.run_with(*arguments, stdin=stdin)
        self.assertEqual((run.returncode, run.stdout), (status, printed), run.stderr)
        self.assertIn(words, run.stderr.decode())
        self.assertNotIn("Traceback", run.stderr.decode())

    def test_case_a(self):
        self.settled(self.file("a.csv", FILE_A), "--month", "1", *GIVEN, printed=CASE_A)
        self.settled("-", "--month", "1", *GIVEN, stdin=FILE_A, printed=CASE_A)
        self.settled("-", "--month", "1", *GIVEN, stdin=FILE_A_IN_MWH, printed=CASE_A)
        self.settled("-", "--upper", "22000000", "--lower", "-22000000", *GIVEN, stdin=FILE_A, printed=CASE_A)
        paid = CASE_A.replace(b"66666660000", b"-3333333").replace(b"33333340000", b"-1666667")
        self.settled("-", "--month=1", "--length=24", "--excess-price=-1", "--shortfall-price=0", stdin=FILE_A, printed=paid)

    def test_several_hours_of_one_day(self):
        first = self.file("1.csv", HEADER + b"1,H,0,7,0,0,0\r\n")
        other = self.file("2.csv", HEADER + b"1,L,0,0,-2,0,0\r\n")
        second = self.file("3.csv", HEADER + b"2,H,0,4,0,0,0")
        printed = HEADING + b"0,7,2,40000,5\r\n" + HEADING + b"0,-2,-1,-25000,-1\r\n" + HEADING + b"0,9,4,80000,5\r\n"
        terms = ["--upper", "5", "--lower", "-1", *GIVEN]
        self.settled(first, other, second, *terms, printed=printed)
        after_one = HEADING + b"0,7,2,40000,5\r\n"
        self.failed("settle", first, first, *terms, status=1, words=f"{first}: settle_hour refused by cause 6: hour is not", printed=after_one)
        two_users = self.file("4.csv", HEADER + b"2,H,0,0,0,0,0\r\n2,H,1,0,0,0,0\r\n")
        self.failed("settle", first, two_users, *terms, status=1, words="settle_hour refused by cause 3: table not", printed=after_one)

    def test_the_length_of_the_day(self):
        hours = [self.file(f"{hour}.csv", HEADER + f"{hour},H,0,0,0,0,0\r\n".encode()) for hour in range(1, 27)]
        terms = ["--upper", "5", "--lower", "-1", *PRICES]
        idle = HEADING + b"0,0,0,0,0\r\n"
        for length, given in ((23, ["--length", "23"]), (24, ["--length", "24"]), (25, ["--length=25"])):
            self.settled(*hours[:length], *given, *terms, printed=length * idle)
            words = f"{hours[length]}: settle_hour refused by cause 6: hour is not"
            self.failed("settle", *hours[: length + 1], *given, *terms, status=1, words=words, printed=length * idle)
        for odd in ("22", "26", "-24"):
            self.failed("settle", hours[0], f"--length={odd}", *terms, status=1, words="open_day refused by cause 21: opening: length not 23, 24 or 25")
        self.failed("settle", hours[0], "--length", str(2**64), *terms, status=2, words="length is beyond 64 bits")
        self.failed("settle", hours[0], "--length", "24.0", *terms, status=2, words="is not a whole number")

    def test_refusals(self):
        a = self.file("a.csv", FILE_A)
        self.failed("settle", a, "--month", "13", *GIVEN, status=1, words="gas_day: " + a + ": default_thresholds refused by cause 8: threshold or price")
        self.failed("settle", a, "--month", "1", "--length", "24", "--excess-price", "10000001", "--shortfall-price", "0", status=1, words="settle_hour refused by cause 8")
        self.failed("settle", "-", "--month", "1", *GIVEN, status=1, words="gas_day: -: read_hour_file refused by cause 13: header differs")
        late = FILE_A.replace(b"\n1,", b"\n2,")
        self.failed("settle", "-", "--month", "1", *GIVEN, stdin=late, status=1, words="refused by cause 6")

    def test_what_cannot_be_used(self):
        a = self.file("a.csv", FILE_A)
        missing = str(self.folder / "none.csv")
        self.failed("settle", missing, "--month", "1", *GIVEN, status=2, words=missing)
        self.failed("settle", str(self.folder), "--month", "1", *GIVEN, status=2, words="directory")
        self.failed("settle", a, "--month", str(2**63), *GIVEN, status=2, words="month is beyond 64 bits")
        for odd in ("1.0", "", " 1", "1_0", "+1", "\u0661", "--1"):
            self.failed("settle", a, f"--month={odd}", *GIVEN, status=2, words="is not a whole number")
        self.failed("settle", a, *GIVEN, status=2, words="either --month or both --upper and --lower")
        self.failed("settle", a, "--month", "1", "--upper", "5", *GIVEN, status=2, words="either --month or both")
        self.failed("settle", a, "--upper", "5", *GIVEN, status=2, words="either --month or both")
        self.failed("settle", a, "--month", "1", "--length", "24", "--excess-price", "1", status=2, words="--shortfall-price")
        self.failed("settle", a, "--month", "1", *PRICES, status=2, words="--length")
        self.failed("settle", "--month", "1", *GIVEN, status=2, words="FILE")
        self.failed("settle", a, "--mon", "1", *GIVEN, status=2, words="--mon")
        self.failed("settle", "-", "-", "--month", "1", *GIVEN, status=2, words="standard input can be read once")
        self.failed("clear", status=2, words="clear")
        self.failed(status=2, words="COMMAND")

    def test_what_is_closed_or_full(self):
        """What was not printed is not a success, and not a refusal."""
        a = self.file("a.csv", FILE_A)
        command = f"{sys.executable} -B -m gas_day settle {a} --month 1 " + " ".join(GIVEN)
        of_nothing = command.replace(a, "/dev/null")
        refusal = b"gas_day: /dev/null: read_hour_file refused by cause 13: header differs\n"
        reads, unread = os.pipe()
        os.close(reads)
        self.addCleanup(os.close, unread)
        for redirected, expected in (
            (f"{command} >/dev/full", (2, b"", b"gas_day: standard output: [Errno 28] No space left on device\n")),
            (f"{command} >&-", (2, b"", b"gas_day: standard output: closed\n")),
            (f"{command} >&{unread}", (2, b"", b"gas_day: standard output: [Errno 32] Broken pipe\n")),
            (f"{command.replace(a, '-')} <&-", (2, b"", b"gas_day: -: standard input is closed\n")),
            (of_nothing, (1, b"", refusal)),
            (f"{of_nothing} 2>&-", (1, b"", b"")),
        ):
            for unbuffered in ("", "1"):
                environment = {**os.environ, "PYTHONPATH": str(Path(gas_day.__file__).parent), "PYTHONUNBUFFERED": unbuffered}
                run = subprocess.run(["bash", "-c", redirected], stdin=subprocess.DEVNULL, capture_output=True, pass_fds=[unread], env=environment, check=False)
                with self.subTest(command=redirected, unbuffered=unbuffered):
                    self.assertEqual((run.returncode, run.stdout, run.stderr), expected)

    def test_help(self):
        for arguments, words in ((["--help"], "settle the hours of files"), (["settle", "--help"], "--shortfall-price")):
            run = self.run_with(*arguments)
            self.assertEqual((run.returncode, run.stderr), (0, b""))
            self.assertIn(words, run.stdout.decode())
            self.assertIn("Exit status: 0 settled; 1 refused", run.stdout.decode())


if __name__ == "__main__":
    unittest.main()
