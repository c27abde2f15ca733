"""A bridge crosses 240 frames with each allocation refused once: a frame that is tried again, and all behind it, go their ways as without a refusal."""
import pathlib
import subprocess
import sys

from machine import TOP, RoomCase, needs, slow
from preload import MEMORY, library

sys.path.insert(0, str(TOP / "bench/speed"))
from laying import built  # pylint: disable=wrong-import-position

MOST = 2000  # calls of memory that are refused in turn
# the Nth call of malloc or realloc answers nothing
SHIM = r"""
static long left;
__attribute__((constructor)) static void begin(void) { left = getenv("NTH") ? atol(getenv("NTH")) : 0; }
static int no_memory(void) { return left > 0 && --left == 0; }
"""


@slow
@needs("gcc", "rt")
class Memory(RoomCase):
    """By the program of bench/speed/snoop, called with a word."""

    def ways(self, program: pathlib.Path, number: int) -> tuple[int, str, str]:
        """The status, the way of each frame, and how many refusals it counted, where this call is refused."""
        around = {"LD_PRELOAD": str(self.room / "preload.so"), "NTH": str(number)}
        ran = subprocess.run([str(program), "ways"], env=around, capture_output=True, text=True, check=False)
        return ran.returncode, ran.stdout, ran.stderr.strip()

    def test_each_refusal(self) -> None:
        program = built("snoop", self.room)
        library(self.room, SHIM, MEMORY)
        _, wanted, _ = self.ways(program, 0)
        self.assertGreater(wanted.count("\n"), 200)
        refused = 0
        for number in range(1, MOST):
            status, found, told = self.ways(program, number)
            if status == 0 and told == "refused 1":
                refused += 1
                self.assertEqual(found, wanted, f"call {number}")
            elif status == 0 and told == "refused 0" and refused:
                break
        self.assertGreater(refused, 0)
