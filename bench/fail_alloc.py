"""A program or tests whose allocation of any number can be made to fail, from one build.

`rt try --fail-alloc N` builds for one N. So what it builds is kept by a link, and N is changed in it for each run.
"""

import glob
import os
import subprocess
import sys
import time

NUMBER = 0x7A5B3C1D  # no run makes as many allocations
IN_CODE = NUMBER.to_bytes(4, "little")
ENDED = 10  # so many runs without a failure: no allocation is left


class Build:
    """What `rt try` builds in a crate's folder, so that allocation NUMBER fails. Nothing is proved."""

    def __init__(self, crate, work, words, read):
        room, kept = f"{work}/build", f"{work}/kept"
        os.mkdir(room)
        with open(f"{work}/said", "wb") as said, open(read, "rb") as given:
            built = subprocess.Popen(
                ["rt", "try", *words, "--fail-alloc", str(NUMBER)],
                cwd=crate,
                env={**os.environ, "TMPDIR": room},
                stdin=given,
                stdout=said,
                stderr=said,
            )
            while built.poll() is None:
                for file in glob.glob(f"{room}/*/**/program*", recursive=True):
                    if not os.path.exists(kept) and os.path.isfile(file):
                        os.link(file, kept)
                time.sleep(0.02)
        if built.returncode or not os.path.exists(kept):
            sys.exit(open(f"{work}/said").read() + "it fails, or was not built")
        self.file = f"{work}/program"
        self.text = open(kept, "rb").read()
        if IN_CODE not in self.text:
            sys.exit("the number of the allocation is not found in the program")

    def run(self, number, words, read=b""):
        """Runs it on these words with its allocation of this number failing. Returns status, output and error."""
        with open(self.file, "wb") as out:
            out.write(self.text.replace(IN_CODE, number.to_bytes(4, "little")))
        os.chmod(self.file, 0o700)
        ran = subprocess.run([self.file, *words], input=read, capture_output=True, timeout=60)
        return ran.returncode, ran.stdout, ran.stderr
