#!/usr/bin/env python3
"""Opens a page of `logic show` in a headless browser, moves it by keys, reads slots back, and takes a picture.

    look.py PAGE.html PICTURE.png

Nothing but the standard library; the browser is Debian's chromium, spoken to by its own debugging protocol. Ends with status 0
only if every slot and line reads as it must for the shipped example (examples/pop.txt)."""
import base64, json, os, socket, subprocess, sys, tempfile, time, urllib.request


class Browser:
    """One page of a browser, spoken to over a web socket."""

    def __init__(self, page):
        self.folder = tempfile.TemporaryDirectory()
        words = ["chromium", "--headless", "--no-sandbox", "--disable-gpu", "--hide-scrollbars", "--window-size=1000,620",
                 "--remote-debugging-port=0", "--remote-allow-origins=*", "--user-data-dir=" + self.folder.name, page]
        self.process = subprocess.Popen(words, stdout=subprocess.DEVNULL, stderr=subprocess.DEVNULL)
        port = self.wait(lambda: open(os.path.join(self.folder.name, "DevToolsActivePort")).read().split("\n")[0])
        list_of = "http://127.0.0.1:%s/json" % port
        pages = self.wait(lambda: [p for p in json.load(urllib.request.urlopen(list_of)) if p["url"].startswith("file:")] or None)
        path = pages[0]["webSocketDebuggerUrl"].split(port, 1)[1]
        self.socket = socket.create_connection(("127.0.0.1", int(port)))
        self.socket.sendall(("GET %s HTTP/1.1\r\nHost: 127.0.0.1:%s\r\nUpgrade: websocket\r\nConnection: Upgrade\r\n"
                             "Sec-WebSocket-Key: AAAAAAAAAAAAAAAAAAAAAA==\r\nSec-WebSocket-Version: 13\r\n\r\n" % (path, port)).encode())
        answer = b""
        while b"\r\n\r\n" not in answer:
            answer += self.socket.recv(1)
        if b" 101 " not in answer:
            raise RuntimeError(answer.decode())
        self.number = 0

    def wait(self, what):
        for _ in range(300):
            try:
                found = what()
                if found is not None:
                    return found
            except OSError:
                pass
            time.sleep(0.1)
        raise RuntimeError("the browser does not answer")

    def bytes(self, n):
        got = b""
        while len(got) < n:
            more = self.socket.recv(n - len(got))
            if not more:
                raise RuntimeError("the browser hung up")
            got += more
        return got

    def call(self, method, **params):
        """One call of the protocol, and its result."""
        self.number += 1
        text = json.dumps({"id": self.number, "method": method, "params": params}).encode()
        size = bytes([0x80 | len(text)]) if len(text) < 126 else bytes([0xFE]) + len(text).to_bytes(2, "big")
        self.socket.sendall(b"\x81" + size + b"\0\0\0\0" + text)
        while True:
            message = b""
            while True:
                first, second = self.bytes(2)
                n = second & 0x7F
                if n == 126:
                    n = int.from_bytes(self.bytes(2), "big")
                elif n == 127:
                    n = int.from_bytes(self.bytes(8), "big")
                message += self.bytes(n)
                if first & 0x80:
                    break
            said = json.loads(message)
            if said.get("id") == self.number:
                return said["result"]

    def read(self, script):
        return self.call("Runtime.evaluate", expression=script)["result"].get("value")

    def key(self, name):
        for kind in ("keyDown", "keyUp"):
            self.call("Input.dispatchKeyEvent", type=kind, key=name)

    def close(self):
        self.process.kill()
        self.process.wait()


def main():
    page, picture = sys.argv[1:]
    browser = Browser("file://" + os.path.abspath(page) + "#0")
    failed = 0

    def must(what, script, expected):
        nonlocal failed
        found = browser.read(script)
        print("%s: %s" % (what, json.dumps(found, ensure_ascii=False)))
        if found != expected:
            failed += 1
            print("  expected %s" % json.dumps(expected, ensure_ascii=False))

    line = "document.getElementById('line').textContent"
    slot = "document.getElementById('slot-%d-%d-%d').textContent"
    record = "document.getElementById('record-2').textContent"
    try:
        browser.wait(lambda: browser.read("document.getElementById('tree').children.length === 3") or None)
        must("at first", line, "cycle 0: cleared; mark off, held 0")
        for _ in range(10):
            browser.key("ArrowRight")
        must("ten keys later", line, "cycle 10: pop → out 1 10 40; mark on, held 6")
        must("the root's slot 1", slot % (1, 0, 1), "● 2/20 90\n×2\nwas 1/10 40 ×3")
        must("level 2", record, "pending: take at node 1")
        shot = browser.call("Page.captureScreenshot", format="png")
        with open(picture, "wb") as to:
            to.write(base64.b64decode(shot["data"]))
        browser.key("ArrowLeft")
        must("one back", slot % (1, 0, 1), "1/10 40\n×3")
        browser.read("location.hash = '#11'")
        browser.wait(lambda: browser.read(line).startswith("cycle 11:") or None)
        must("by a link", record, "pending: nothing")
        browser.key("Home")
        must("home", line, "cycle 0: cleared; mark off, held 0")
        browser.read("(e => { e.value = 3; e.dispatchEvent(new Event('input')); })(document.getElementById('at'))")
        must("by the slider", line, "cycle 3: push 8 80 96 → pushed; mark on, held 3")
    finally:
        browser.close()
    print("%d wrong" % failed)
    sys.exit(1 if failed else 0)


main()
