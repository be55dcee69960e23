"""Runs scripts on the script program, by a process each."""

import resource
import subprocess
import tempfile

# A program that takes so many seconds of a processor, or waits as long for nothing, doesn't end.
SECONDS = 120
SECONDS_TO_WAIT = 3600


def limit():
    """Ends a process that takes too long, however busy the machine is."""
    resource.setrlimit(resource.RLIMIT_CPU, (SECONDS, SECONDS))


class Built:
    """A program that is built: short processes, a few side by side."""

    batch = 4
    seconds_to_shrink = 120

    def __init__(self, path):
        self.path = path

    def start(self, scripts):
        """Begins with the scripts; what is answered waits for them."""
        return [self.process(script) for script in scripts]

    def process(self, script):
        """A process with a script for its input."""
        source, printed, said = (tempfile.TemporaryFile() for _ in range(3))
        source.write(script)
        source.seek(0)
        process = subprocess.Popen(
            [self.path], stdin=source, stdout=printed, stderr=said, preexec_fn=limit)
        return process, printed, said

    def results(self, started):
        """What each script printed, and its status."""
        return [self.result(process, printed) for process, printed, _ in started]

    def why(self, started):
        """What was said on standard error of each script, which has ended."""
        texts = []
        for _, _, said in started:
            said.seek(0)
            texts.append(said.read())
        return texts

    def result(self, process, printed):
        """What one script printed, and its status."""
        try:
            status = process.wait(SECONDS_TO_WAIT)
        except subprocess.TimeoutExpired:
            process.kill()
            status = "it didn't end"
            process.wait()
        printed.seek(0)
        return printed.read(), status

