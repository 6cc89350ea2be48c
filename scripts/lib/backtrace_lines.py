"""The lines that `backtrace` prints of a core, as expressions: what the core says of its process, threads, frames and ends of walks."""

import re

HEADING = r"Command: [ -~]*|Signal: [ -~]+"
THREAD = r'Thread (\d+)(?: "[ -~]*")?(?:, got the signal)?:'
FRAME = r"#\d+ +0x[0-9a-f]{16} in [ -~]+|#\d+ +<signal handler called>|   (?: \w+ 0x[0-9a-f]{16})+"
END = r"Backtrace stopped: .*"

HEADING_LINE, THREAD_LINE, BACKTRACE_LINE = map(re.compile, (HEADING, THREAD, "|".join((HEADING, THREAD, FRAME, END))))
