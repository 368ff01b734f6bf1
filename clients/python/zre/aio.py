"""A node for asyncio: `zre.aio.Node` is `zre.Node` with calls that are awaited.

    async with zre.aio.Node("Ann") as node:
        await node.join("chat")
        async for event in node:
            if isinstance(event, zre.Shout):
                await node.whisper(event.peer, b"heard: " + event.content[0])
"""
import asyncio
import tempfile
from typing import AsyncIterator, Optional

from .events import Event, Stop
from .lines import BadLine, Command
from .node import PROBE, Content, frame, last_line, unpacked
from .session import Full, NodeDied, NotRunning, Queries
from .settings import Octets, Peer, identity, octets

_PIECE = 65_536


class Node(Queries):
    """As `zre.Node`, which says what its arguments, contents, limits and refusals are; for one event loop."""

    def _prepare(self) -> None:
        self._process: Optional[asyncio.subprocess.Process] = None

    async def start(self) -> None:
        """Puts the node on the network, and returns once it is there. Raises NodeDied where it can't be, saying why."""
        if self._process is not None:
            raise NotRunning("a node is started once")
        self._errors = tempfile.TemporaryFile()
        self._changed, self._writing = asyncio.Condition(), asyncio.Lock()
        pipe = asyncio.subprocess.PIPE
        self._process = await asyncio.create_subprocess_exec(
            *self.settings.command(self._program), stdin=pipe, stdout=pipe, stderr=self._errors
        )
        assert self._process.stdin is not None and self._process.stdout is not None
        self._input, self._output = self._process.stdin, self._process.stdout
        self._reader = asyncio.ensure_future(self._read())
        await self.flush()

    async def stop(self, timeout: float = 10.0) -> None:
        """Has the node say good-bye and end; the events until then, Stop last, can still be received."""
        if self._process is None:
            return
        self._waiting += 1
        try:
            await self._tell()
            self._input.close()
            await asyncio.wait([self._reader], timeout=timeout)
            if not self._reader.done():
                self._process.kill()
            await self._reader
        finally:
            self._waiting -= 1

    async def __aenter__(self) -> "Node":
        await self.start()
        return self

    async def __aexit__(self, *_: object) -> None:
        await self.stop()

    @property
    def pid(self) -> Optional[int]:
        """The process of the program, while there is one."""
        return None if self._process is None or self._status is not None else self._process.pid

    # ---- Sending ----

    async def join(self, group: Octets) -> None:
        """Joins a group, and tells every peer. Refused with SAME where the node is in it, with LIMIT past 1,024."""
        await self._give(Command("join", group=octets(group)))

    async def leave(self, group: Octets) -> None:
        """Leaves a group, and tells every peer. Refused with NOGROUP where the node isn't in it."""
        await self._give(Command("leave", group=octets(group)))

    async def shout(self, group: Octets, content: Content) -> None:
        """Sends a content to every peer in the group; the node needn't be in it."""
        await self._give(Command("shout", group=octets(group), text=frame(content, self._packed)))

    async def shouts(self, group: Octets, text: str, *args: object) -> None:
        """Sends a text to a group, with `args` put into it by %."""
        await self.shout(group, text % args if args else text)

    async def whisper(self, peer: Peer, content: Content) -> None:
        """Sends a content to one peer. Refused with NOPEER where it isn't there."""
        await self._give(Command("whisper", peer=identity(peer), text=frame(content, self._packed)))

    async def whispers(self, peer: Peer, text: str, *args: object) -> None:
        """Sends a text to one peer, with `args` put into it by %."""
        await self.whisper(peer, text % args if args else text)

    async def flush(self, timeout: Optional[float] = None) -> bool:
        """Waits until the node has done all lines sent so far; then their refusals have come. False on timeout."""
        count = await self._give(None)
        self._waiting += 1
        await self._tell()
        try:
            await self._wait(lambda: self._status is not None or self._session.is_done(count), timeout)
        finally:
            self._waiting -= 1
        if self._status is not None and not self._session.is_done(count):
            raise self._why()
        return self._session.is_done(count)

    async def _give(self, command: Optional[Command]) -> int:
        """Sends a command, or a sync line alone: all of it, or nothing if the pipe stays full too long."""
        if self._process is None:
            raise NotRunning("the node wasn't started")
        self._waiting += 1
        await self._tell()
        try:
            async with self._writing:
                await asyncio.wait_for(self._input.drain(), self._patience)
                if self._input.is_closing() or self._status is not None:
                    raise BrokenPipeError
                self._input.write(self._session.sync() if command is None else self._session.send(command))
                return self._session.count
        except asyncio.TimeoutError:
            raise Full(f"the pipe to the program was full for {self._patience} seconds") from None
        except (BrokenPipeError, ConnectionResetError):
            await asyncio.wait([self._reader], timeout=1.0)
            raise self._why() from None
        finally:
            self._waiting -= 1

    def _why(self) -> Exception:
        if self._status:
            return NodeDied(self._status, self._error)
        return NotRunning("the node has stopped")

    # ---- Receiving ----

    async def recv(self, timeout: Optional[float] = None) -> Optional[Event]:
        """The next event; None where there is none within `timeout` seconds.

        After Stop it raises NotRunning. Where the program died, it raises NodeDied once its events were received.
        """
        if self._process is None:
            raise NotRunning("the node wasn't started")
        if not self._events and not await self._wait(lambda: self._events or self._status is not None, timeout):
            return None
        if not self._events:
            raise self._why()
        event, size = self._events.popleft()
        self._unread -= size
        if self._unread <= self._bound < self._unread + size:
            await self._tell()
        return event

    async def __aiter__(self) -> AsyncIterator[Event]:
        """The events as they come, up to Stop."""
        while True:
            event = await self.recv()
            assert event is not None
            yield event
            if isinstance(event, Stop):
                return

    async def _tell(self) -> None:
        async with self._changed:
            self._changed.notify_all()

    async def _wait(self, is_so: object, timeout: Optional[float]) -> bool:
        async def wait() -> None:
            async with self._changed:
                await self._changed.wait_for(is_so)  # type: ignore[arg-type]

        try:
            await asyncio.wait_for(wait(), timeout)
        except asyncio.TimeoutError:
            return False
        return True

    async def _read(self) -> None:
        """Reads what the program writes, to its end."""
        assert self._process is not None
        try:
            while True:
                try:
                    piece = await asyncio.wait_for(self._output.read(_PIECE), PROBE)
                except asyncio.TimeoutError:
                    # after a failure of the network the program ends only with further input
                    if not self._session.unanswered and not self._input.is_closing():
                        self._input.write(self._session.sync())
                    continue
                if not piece:
                    break
                await self._hear(piece)
        except BadLine as why:
            self._error = f"it wrote a line that is no event: {why}"
            self._input.close()
            while await self._output.read(_PIECE):
                pass
        finally:
            self._input.close()
            status = await self._process.wait()
            self._status, self._error = status, last_line(self._errors) or self._error
            self._errors.close()
            await self._tell()

    async def _hear(self, piece: bytes) -> None:
        for line in self._session.lines(piece):
            event = self._session.take(line)
            if event is not None:
                self._events.append((unpacked(event) if self._packed else event, len(line)))
                self._unread += len(line)
        await self._tell()
        if self._unread > self._bound and not self._waiting:
            await self._wait(lambda: self._unread <= self._bound or self._waiting, None)
