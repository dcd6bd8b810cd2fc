"""All tests of the laboratory's decoder, captures, taps and split recordings, and of what its tools share. Usage: all.py PROGRAM. Closes with 'N passed, M failed'."""
import os
import sys

sys.dont_write_bytecode = True
TOP = os.path.dirname(os.path.dirname(os.path.dirname(os.path.abspath(__file__))))
sys.path.insert(0, os.path.join(TOP, "tools"))

import capture_tests  # noqa: E402
import command_tests  # noqa: E402
import decoder_tests  # noqa: E402
import product_tests  # noqa: E402
import recorded_tests  # noqa: E402
import recording_tests  # noqa: E402
import relay_tests  # noqa: E402
import sources_tests  # noqa: E402
import tap_tests  # noqa: E402
import vector_tests  # noqa: E402
from judge import Judge  # noqa: E402


def main():
    program = os.path.abspath(sys.argv[1])
    os.chdir(TOP)
    judge = Judge()
    decoder_tests.run(judge)
    sources_tests.run(judge)
    recorded_tests.run(judge)
    recording_tests.run(judge)
    command_tests.run(judge)
    tap_tests.run(judge)
    relay_tests.run(judge)
    built = os.access(program, os.X_OK)
    judge.same(f"{program} is built", built, True)
    if built:
        capture_tests.run(judge, program)
        recording_tests.against(judge, program)
        product_tests.run(judge, program)
        vector_tests.run(judge, program)
    return judge.close()


if __name__ == "__main__":
    sys.exit(main())
