"""The language server as a process: the exchanges of `lsp/exchanges.jsonl`, and what no table can say.

An exchange begins with its title, and is a list of steps. `open`, `change`, `close`, `file`, `ask`, `send` and `bytes`
say what is done, `answer`, `hear` and `diagnostics` what is waited for: a value has what the pattern has, which may
have less. `$F` is the folder's URI, `$P` its path, `$N` the number of a step that is repeated.
"""

import json
import os
import signal
import subprocess
import tempfile
import time
import unittest
from pathlib import Path

from pide.lsp.rpc import message_bytes

from .lsp_client import Client, at, change
from .lsp_random_edits import walk
from .program import PROGRAM, needs_program

EXCHANGES = Path(__file__).resolve().parent / "lsp" / "exchanges.jsonl"
LEMMA = 'lemma x%d: "P --> P" by (impI h h)\n'


def exchanges():
    """The exchanges, each a list of steps."""
    found = []
    for line in EXCHANGES.read_text().splitlines():
        step = json.loads(line)
        if "exchange" in step:
            found.append([])
        found[-1].append(step)
    return found


def fits(value, pattern):
    """Whether a value has all that the pattern has."""
    if isinstance(pattern, dict):
        return isinstance(value, dict) and all(key in value and fits(value[key], pattern[key]) for key in pattern)
    if isinstance(pattern, list):
        return isinstance(value, list) and len(value) == len(pattern) and all(map(fits, value, pattern))
    return value == pattern


def replaced(value, names):
    """The value with names replaced in all its texts and keys."""
    if isinstance(value, dict):
        return {replaced(key, names): replaced(inner, names) for key, inner in value.items()}
    if isinstance(value, list):
        return [replaced(inner, names) for inner in value]
    if isinstance(value, str):
        for name, text in names.items():
            value = value.replace(name, text)
    return value


class Run:
    """An exchange with a server, in a folder of its own."""

    def __init__(self, test, folder, client):
        self.test = test
        self.folder = folder
        self.client = client
        self.names = {"$F": folder.as_uri(), "$P": str(folder)}
        self.opened = set()

    def uri(self, name):
        return (self.folder / f"{name}.thy").as_uri()

    def steps(self, steps):
        for step in steps[1:]:
            for number in range(step.get("repeat", 1)):
                self.step(replaced(step, {**self.names, "$N": str(number)}))
        for name in sorted(self.opened):
            self.do_close({"close": name})

    def step(self, step):
        kind = next(key for key in step if key != "repeat")
        getattr(self, f"do_{kind}")(step)

    def do_file(self, step):
        text = step["text"].encode() if "text" in step else bytes.fromhex(step["hex"])
        (self.folder / step["file"]).write_bytes(text)

    def do_open(self, step):
        text = step["text"]
        if "lemmas" in step:
            text = text.replace("end\n", "".join(LEMMA % number for number in range(step["lemmas"])) + "end\n")
        self.opened.add(step["open"])
        self.client.open(self.uri(step["open"]), text)

    def do_change(self, step):
        changes = [change(line, start, stop, text, last) for line, start, last, stop, text in step["at"]]
        self.client.change(self.uri(step["change"]), *changes)

    def do_close(self, step):
        self.opened.discard(step["close"])
        self.client.notify("textDocument/didClose", {"textDocument": {"uri": self.uri(step["close"])}})

    def do_ask(self, step):
        answer = self.client.answer(self.client.ask(step["ask"], step.get("params")))
        self.test.assertTrue(fits(answer, step["answer"]), (step, answer))

    def do_send(self, step):
        """Sends a message, or several at once."""
        messages = step["send"] if isinstance(step["send"], list) else [step["send"]]
        self.client.write(b"".join(map(message_bytes, messages)))

    def do_bytes(self, step):
        sent = step["bytes"].encode()
        size = step.get("pieces", len(sent))
        for start in range(0, len(sent), size):
            self.client.write(sent[start : start + size])

    def do_hear(self, step):
        heard = self.client.heard
        self.client.wait(lambda: any(fits(message, step["hear"]) for message in heard))

    def do_diagnostics(self, step):
        wanted = sorted(step["are"])
        uri = self.uri(step["diagnostics"])

        def are_there():
            found = self.client.diagnostics.get(uri, {"diagnostics": []})
            places = [[each["range"]["start"]["line"], each["range"]["start"]["character"],
                       each["range"]["end"]["line"], each["range"]["end"]["character"], each["message"]]
                      for each in found["diagnostics"]]
            return sorted(places) == wanted and step.get("version") in (None, found.get("version"))

        self.client.wait(are_there, lambda: (step, self.client.diagnostics.get(uri)))

    def do_end(self, step):
        self.opened.clear()
        self.test.assertEqual(self.client.end(), step["end"])


@needs_program
class Exchanges(unittest.TestCase):
    """An exchange that ends the server, or asks for other capabilities, has a server of its own."""

    def setUp(self):
        self.shared = self.started({})

    def started(self, head):
        client = Client("--program", PROGRAM, "--workers", "2")
        self.addCleanup(client.kill)
        if not head.get("raw"):
            client.initialize(**head.get("capabilities", {}))
        return client

    def test_the_table(self):
        for steps in exchanges():
            is_own = "capabilities" in steps[0] or any("end" in step for step in steps)
            client = self.started(steps[0]) if is_own else self.shared
            with self.subTest(steps[0]["exchange"]), tempfile.TemporaryDirectory() as folder:
                Run(self, Path(folder).resolve(), client).steps(steps)
            if is_own and client.process.returncode is None:
                self.assertEqual(client.stop(), 0)
        self.assertEqual(self.shared.stop(), 0)


@needs_program
class TheEngine(unittest.TestCase):
    def setUp(self):
        self.client = Client("--program", PROGRAM, "--workers", "2")
        self.addCleanup(self.client.kill)
        self.client.initialize()
        self.uri = "file:///nowhere/A.thy"
        self.client.open(self.uri, 'theory A begin\nlemma l: "P" by x\nend\n')
        self.client.wait(lambda: self.client.messages_of(self.uri) == ["unknown name x"])

    def engine(self):
        words = ["ps", "-o", "pid=", "--ppid", str(self.client.process.pid)]
        return int(subprocess.run(words, stdout=subprocess.PIPE, check=True).stdout)

    def test_an_engine_that_dies_is_told_and_started_anew_at_the_next_change(self):
        os.kill(self.engine(), signal.SIGKILL)
        self.client.wait(lambda: any(heard.get("method") == "window/showMessage" for heard in self.client.heard))
        self.assertIsNone(self.client.request("textDocument/hover", at(self.uri, 1, 3)))
        self.client.change(self.uri, change(1, 16, 17, "y"))
        self.client.wait(lambda: self.client.messages_of(self.uri) == ["unknown name y"])
        self.assertEqual(self.client.stop(), 0)

    def test_a_client_that_dies_takes_the_engine_with_it(self):
        engine = self.engine()
        self.client.process.kill()
        self.client.process.wait()
        self.assertTrue(ends(engine))


def ends(process):
    """Whether a process is gone within some seconds."""
    for _ in range(100):
        try:
            os.kill(process, 0)
        except ProcessLookupError:
            return True
        try:
            if Path(f"/proc/{process}/stat").read_text().rsplit(")", 1)[1].split()[0] == "Z":
                return True
        except OSError:
            pass
        time.sleep(0.1)
    return False


class WithoutTheEngine(unittest.TestCase):
    def test_a_program_that_is_not_there_is_told_and_the_server_goes_on(self):
        client = Client("--program", "/nowhere/pide")
        self.addCleanup(client.kill)
        client.initialize()
        client.open("file:///nowhere/A.thy", "theory A begin end")
        client.wait(lambda: any(heard.get("method") == "window/showMessage" for heard in client.heard))
        client.change("file:///nowhere/A.thy", change(0, 0, 0, " "))
        self.assertIsNone(client.request("textDocument/hover", at("file:///nowhere/A.thy", 0, 3)))
        self.assertEqual(client.stop(), 0)
        self.assertEqual(sum(heard.get("method") == "window/showMessage" for heard in client.heard), 1)


@needs_program
class RandomEdits(unittest.TestCase):
    def test_diagnostics_at_rest_are_those_of_check(self):
        looks, found = walk(40, seed=7)
        self.assertGreater(looks, 8)
        self.assertGreater(found, 0)


if __name__ == "__main__":
    unittest.main()
