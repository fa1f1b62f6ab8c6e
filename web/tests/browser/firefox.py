"""Firefox opens the page from its file, shows the sample, plays a move, has it again after a reload and runs a script.
Through Marionette, which it has itself.

    firefox.py
"""
import base64
import json
import os
import re
import shutil
import socket
import subprocess
import sys
import tempfile
import time

HERE = os.path.dirname(os.path.abspath(__file__))
PAGE = os.path.abspath(os.environ.get("STUDYBOARD", os.path.join(HERE, "..", "..", "out", "studyboard.html")))


class Firefox:
    def __init__(self, port=2931):
        self.folder = tempfile.mkdtemp()
        with open(os.path.join(self.folder, "user.js"), "w", encoding="ascii") as file:
            file.write(f'user_pref("marionette.port", {port});\n')
        words = [
            "firefox-esr",
            "--headless",
            "--no-remote",
            "--marionette",
            "--profile",
            self.folder,
            "--window-size=1280,900",
        ]
        self.process = subprocess.Popen(words, stdout=subprocess.DEVNULL, stderr=subprocess.DEVNULL)
        for _ in range(200):
            try:
                self.socket = socket.create_connection(("127.0.0.1", port))
                break
            except OSError:
                time.sleep(0.1)
        self.number, self.rest = 0, b""
        self.read()
        self.ask("WebDriver:NewSession", {})
        self.ask("WebDriver:SetTimeouts", {"script": 300000, "pageLoad": 60000})

    def read(self):
        while True:
            m = re.match(rb"(\d+):", self.rest)
            if m and len(self.rest) >= m.end() + int(m.group(1)):
                body = self.rest[m.end() : m.end() + int(m.group(1))]
                self.rest = self.rest[m.end() + int(m.group(1)) :]
                return json.loads(body)
            data = self.socket.recv(1 << 20)
            assert data, "Firefox went away"
            self.rest += data

    def ask(self, command, parameters):
        self.number += 1
        text = json.dumps([0, self.number, command, parameters]).encode()
        self.socket.sendall(b"%d:%s" % (len(text), text))
        _, _, fault, value = self.read()
        assert not fault, fault
        return value

    def promise(self, code):
        script = (
            "const done = arguments[arguments.length - 1]; (async () => { try { done([true, await ("
            + code
            + ")]); } catch (e) { done([false, String(e)]); } })()"
        )
        right, value = self.ask("WebDriver:ExecuteAsyncScript", {"script": script, "args": [], "sandbox": None})[
            "value"
        ]
        assert right, value
        return value

    def end(self):
        self.socket.close()
        self.process.terminate()
        self.process.wait()
        shutil.rmtree(self.folder, ignore_errors=True)


def main():
    fox = Firefox()
    try:
        fox.ask("WebDriver:Navigate", {"url": "file://" + PAGE})
        fox.promise("studyboard.idle().then(() => 0)")
        fox.promise(
            """(async () => {
            document.getElementById('sample').click();
            const built = () => document.getElementById('stamp') && document.getElementById('progress').hidden;
            while (!built()) await new Promise(on => setTimeout(on, 50));
            await studyboard.idle();
            return 0;
        })()"""
        )
        assert fox.promise("document.getElementById('stamp').textContent") == "sound"
        fox.promise(
            "(async () => { document.querySelector('.moves [data-san=\"Kh3\"]').click(); await studyboard.idle();"
            " return 0; })()"
        )
        kept = fox.promise("studyboard.script()")
        assert "Kh3" in kept
        fox.ask("WebDriver:Refresh", {})
        fox.promise("studyboard.idle().then(() => 0)")
        assert fox.promise("studyboard.script()") == kept
        rows = fox.promise(
            """(async () => {
            document.getElementById('documentsButton').click();
            while (document.getElementById('documents').hidden) await new Promise(on => setTimeout(on, 20));
            const rows = [...document.querySelectorAll('#documents tbody tr')].map(row => row.innerText);
            document.getElementById('closeDocuments').click();
            return rows;
        })()"""
        )
        assert len(rows) == 1 and "sound" in rows[0] and "open here" in rows[0], rows
        script = (
            "load KK\\nload KRK\\nposition k7/8/1K6/8/8/8/8/7R w - - 0 1\\nstipulate white mate 1\\ninsert root"
            " Rh8\\nmark 0\\n"
        )
        answer = fox.promise(f"studyboard.run('{script}', 8)")
        assert answer.endswith("insert 0 Rh8#\nmark 0 loss 0 only faults 0\n"), answer
        if os.environ.get("SHOTS"):
            with open(os.path.join(os.environ["SHOTS"], "firefox.png"), "wb") as file:
                file.write(base64.b64decode(fox.ask("WebDriver:TakeScreenshot", {"full": True})["value"]))
        print("firefox: passed")
    finally:
        fox.end()


if shutil.which("firefox-esr"):
    main()
else:
    print("no firefox-esr: not tried")
    sys.exit(0)
