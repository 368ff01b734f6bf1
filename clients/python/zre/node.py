"""A node for programs with threads or with none: `Node` runs `zre chat` as a child."""
import atexit
import os
import select
import subprocess
import tempfile
import threading
import time
from typing import IO, Iterable, Iterator, Optional, Union

from .events import Event, Stop
from .lines import BadLine, Command
from .quoting import BadField, quote_list, unquote_list
from .session import Full, NodeDied, NotRunning, Queries
from .settings import Octets, Peer, identity, octets

Content = Union[bytes, str, Iterable[bytes]]

PROBE = 5.0  # Seconds after which an idle program gets a sync line, to find out whether it still runs.
_PIECE = 65_536


def frame(content: Content, packed: bool) -> bytes:
    """The one frame of a content. A list of frames needs `packed`; it then is one frame of text without a line feed."""
    if packed:
        return quote_list([octets(content)] if isinstance(content, (bytes, bytearray, str)) else content)
    if not isinstance(content, (bytes, bytearray, str)):
        raise ValueError("a content is one frame: several can be sent by a node with packed=True, to such nodes")
    return octets(content)


def unpacked(event: Event) -> Event:
    """A Whisper or Shout with the frames that a node with `packed` sent; another as it is."""
    content = getattr(event, "content", None)
    if content is None or len(content) != 1:
        return event
    try:
        frames = unquote_list(content[0])
    except BadField:
        return event
    return type(event)(**{**event.__dict__, "content": frames})


def last_line(file: IO[bytes]) -> str:
    """The last line of a file that isn't empty, of its last 4 KiB."""
    file.seek(0, os.SEEK_END)
    file.seek(max(0, file.tell() - 4096))
    lines = [line for line in file.read().decode("utf-8", "replace").split("\n") if line.strip()]
    return lines[-1] if lines else ""


class Node(Queries):
    """A node on the network. Its name, headers and identity are fixed when it is made; `start` puts it on the network.

        with zre.Node("Ann", {"X-LANG": "en"}) as node:
            node.join("chat")
            for event in node:
                if isinstance(event, zre.Shout):
                    node.whisper(event.peer, b"heard: " + event.content[0])

    Names, headers, groups and contents are bytes or str (then UTF-8), and come back as bytes. A content is one frame
    of at most 65,536 octets together with its command, and has no line feed: every other raises ValueError. With
    `packed=True` it is any octets, or a list of frames: it is sent as their quoted list, which only nodes with
    `packed=True` turn back; octets that are quoted take three.

    `interface`, `uuid`, `host`, `port`, `to`: `zre.settings.settings` says what is found where they are left out.
    `listen`, `beacon`, `interval`, `evasive`, `expired`, `capture` are the words of `zre chat`; a capture holds the
    sync lines of `zre.session` too, as entries `do bad`. Without `program`, `zre.settings.find_program` finds it.

    **Back pressure.** A call that sends waits while the pipe to the program is full, for `patience` seconds where that
    is given, and then raises Full; meanwhile events are taken in without bound. Else events of up to `unread` octets
    wait for `recv`; with more the node waits, and its peers in the end take it for gone. A peer that takes too little
    itself is ended by the node: Exit with the cause `slow`.

    All calls may be made from several threads.
    """

    def _prepare(self) -> None:
        self._process: Optional[subprocess.Popen[bytes]] = None
        self._changed = threading.Condition()
        self._writing = threading.Lock()

    # ---- Its life ----

    def start(self) -> None:
        """Puts the node on the network, and returns once it is there. Raises NodeDied where it can't be, saying why."""
        if self._process is not None:
            raise NotRunning("a node is started once")
        self._errors = tempfile.TemporaryFile()
        self._process = subprocess.Popen(
            self.settings.command(self._program),
            stdin=subprocess.PIPE,
            stdout=subprocess.PIPE,
            stderr=self._errors,
            bufsize=0,
        )
        assert self._process.stdin is not None and self._process.stdout is not None
        self._input, self._output = self._process.stdin, self._process.stdout
        os.set_blocking(self._input.fileno(), False)
        self._reader = threading.Thread(target=self._read, name="zre", daemon=True)
        self._reader.start()
        atexit.register(self.stop)
        self.flush()

    def stop(self, timeout: float = 10.0) -> None:
        """Has the node say good-bye and end. The events that it reports until then can still be received, Stop last.

        A program that doesn't end within `timeout` seconds is killed. Stopping twice, or a node that never ran, is
        nothing.
        """
        if self._process is None:
            return
        atexit.unregister(self.stop)
        with self._changed:
            self._waiting += 1
            self._changed.notify_all()
        if self._writing.acquire(timeout=timeout):
            self._input.close()
            self._writing.release()
        self._reader.join(timeout)
        if self._reader.is_alive():
            self._process.kill()
            self._reader.join()
        with self._changed:
            self._waiting -= 1

    def __enter__(self) -> "Node":
        self.start()
        return self

    def __exit__(self, *_: object) -> None:
        self.stop()

    @property
    def pid(self) -> Optional[int]:
        """The process of the program, while there is one."""
        return None if self._process is None or self._status is not None else self._process.pid

    # ---- Sending ----

    def join(self, group: Octets) -> None:
        """Joins a group, and tells every peer. Refused with SAME where the node is in it, with LIMIT past 1,024."""
        self._give(Command("join", group=octets(group)))

    def leave(self, group: Octets) -> None:
        """Leaves a group, and tells every peer. Refused with NOGROUP where the node isn't in it."""
        self._give(Command("leave", group=octets(group)))

    def shout(self, group: Octets, content: Content) -> None:
        """Sends a content to every peer in the group; the node needn't be in it."""
        self._give(Command("shout", group=octets(group), text=frame(content, self._packed)))

    def shouts(self, group: Octets, text: str, *args: object) -> None:
        """Sends a text to a group, with `args` put into it by %."""
        self.shout(group, text % args if args else text)

    def whisper(self, peer: Peer, content: Content) -> None:
        """Sends a content to one peer. Refused with NOPEER where it isn't there."""
        self._give(Command("whisper", peer=identity(peer), text=frame(content, self._packed)))

    def whispers(self, peer: Peer, text: str, *args: object) -> None:
        """Sends a text to one peer, with `args` put into it by %."""
        self.whisper(peer, text % args if args else text)

    def flush(self, timeout: Optional[float] = None) -> bool:
        """Waits until the node has done all lines sent so far; then their refusals have come. False on timeout."""
        count = self._give(None)
        with self._changed:
            self._waiting += 1
            self._changed.notify_all()
            try:
                self._changed.wait_for(lambda: self._status is not None or self._session.is_done(count), timeout)
                if self._status is not None and not self._session.is_done(count):
                    raise self._why()
                return self._session.is_done(count)
            finally:
                self._waiting -= 1

    def _give(self, command: Optional[Command]) -> int:
        """Sends a command, or a sync line alone. Returns how many lines were sent with it."""
        if self._process is None:
            raise NotRunning("the node wasn't started")
        with self._changed:
            self._waiting += 1
            self._changed.notify_all()
        try:
            with self._writing:
                return self._write(command)
        except (BrokenPipeError, ValueError) as why:
            if not isinstance(why, BrokenPipeError) and not self._input.closed:
                raise
            self._reader.join(1.0)
            raise self._why() from None
        finally:
            with self._changed:
                self._waiting -= 1

    def _write(self, command: Optional[Command]) -> int:
        """Writes a command and its sync line: all of it, or nothing if the pipe stays full too long."""
        writable = select.poll()
        writable.register(self._input.fileno(), select.POLLOUT)
        if not writable.poll(None if self._patience is None else self._patience * 1000):
            raise Full(f"the pipe to the program was full for {self._patience} seconds")
        unsent = self._session.sync() if command is None else self._session.send(command)
        count = self._session.count
        while unsent:
            try:
                unsent = unsent[os.write(self._input.fileno(), unsent) :]
            except BlockingIOError:
                writable.poll()
        return count

    def _why(self) -> Exception:
        """Why nothing can be sent or received any more."""
        if self._status:
            return NodeDied(self._status, self._error)
        return NotRunning("the node has stopped")

    # ---- Receiving ----

    def recv(self, timeout: Optional[float] = None) -> Optional[Event]:
        """The next event; None where there is none within `timeout` seconds.

        After Stop it raises NotRunning. Where the program died, it raises NodeDied once its events were received.
        """
        if self._process is None:
            raise NotRunning("the node wasn't started")
        end = None if timeout is None else time.monotonic() + timeout
        with self._changed:
            while not self._events:
                if self._status is not None:
                    raise self._why()
                if not self._changed.wait(None if end is None else max(0.0, end - time.monotonic())):
                    return None
            event, size = self._events.popleft()
            self._unread -= size
            self._changed.notify_all()
        return event

    def __iter__(self) -> Iterator[Event]:
        """The events as they come, up to Stop."""
        while True:
            event = self.recv()
            assert event is not None
            yield event
            if isinstance(event, Stop):
                return

    def events(self) -> Iterator[Event]:
        """The events as they come, up to Stop."""
        return iter(self)

    def recent_events(self) -> Iterator[Event]:
        """The events that wait now."""
        while self._events:
            event = self.recv(0)
            if event is None:
                return
            yield event

    # ---- The thread that reads the program ----

    def _read(self) -> None:
        assert self._process is not None
        written = select.poll()
        written.register(self._output.fileno(), select.POLLIN)
        try:
            while True:
                if not written.poll(PROBE * 1000):
                    self._probe()
                    continue
                piece = os.read(self._output.fileno(), _PIECE)
                if not piece:
                    break
                self._hear(piece)
        except BadLine as why:
            self._pass_over(f"it wrote a line that is no event: {why}")
        finally:
            self._output.close()
            status = self._process.wait()
            with self._changed:
                self._status, self._error = status, last_line(self._errors) or self._error
                self._errors.close()
                self._changed.notify_all()

    def _hear(self, piece: bytes) -> None:
        for line in self._session.lines(piece):
            event = self._session.take(line)
            if event is not None:
                self._events.append((unpacked(event) if self._packed else event, len(line)))
                with self._changed:
                    self._unread += len(line)
        with self._changed:
            self._changed.notify_all()
            self._changed.wait_for(lambda: self._unread <= self._bound or self._waiting)

    def _pass_over(self, error: str) -> None:
        """Has a program end that writes something else than events, as one does that refuses its words."""
        self._error = error
        with self._writing:
            self._input.close()
        while os.read(self._output.fileno(), _PIECE):
            pass

    def _probe(self) -> None:
        """Sends an idle program a sync line: after a failure of the network it ends only with further input."""
        if self._writing.acquire(blocking=False):
            try:
                if not self._input.closed and not self._session.unanswered:
                    os.write(self._input.fileno(), self._session.sync())
            except (BrokenPipeError, BlockingIOError):
                pass
            finally:
                self._writing.release()
