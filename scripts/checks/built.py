"""The programs that are tried at a served store, each built as it is first asked for."""
from __future__ import annotations

import os
from functools import cached_property
from pathlib import Path

import building
import serving

CHECKED = f"CFLAGS={serving.SANITIZERS}"


class Built:
    """The programs, and the folder of the check."""

    def __init__(self, room: Path, words: list[str]) -> None:
        room.chmod(0o755)  # clusters run as another user
        self.room, self.words = room, words

    @cached_property
    def library(self) -> Path:
        return serving.library(self.room, self.words)

    @cached_property
    def play(self) -> Path:
        return building.play("PLAY")

    @cached_property
    def gateway(self) -> Path:
        """With ASan and UBSan."""
        return serving.made(Path("hosts/gateway"), self.room, CHECKED) / "gateway"

    @cached_property
    def serve(self) -> Path:
        return self.engine_server("plain")

    @cached_property
    def checked_serve(self) -> Path:
        """With ASan and UBSan."""
        return self.engine_server("checked", CHECKED)

    @cached_property
    def examples(self) -> Path:
        # Debian's compiler, the oldest that the crate is written for, where it is there.
        debian = "/usr/bin/rustc"
        rustc = os.environ.get("RUSTC") or (debian if os.path.exists(debian) else "rustc")
        words = [f"LIBRARY={self.library}", f"RUSTC={rustc}"]
        return serving.made(Path("examples"), self.room, *words)

    @property
    def env(self) -> dict[str, str]:
        """That of programs in Python over the library."""
        return {**os.environ, "PYTHONPATH": f"{self.library}/share/rughvadi/python"}

    def engine_server(self, name: str, *settings: str) -> Path:
        room = self.room / name
        room.mkdir()
        words = [f"LIBRARY={self.library}", *settings]
        return serving.made(Path("hosts/serve"), room, *words) / "rughvadi-serve"

    def in_c(self, name: str, *flags: str) -> Path:
        """A program of scripts/programs/c over the library."""
        return serving.in_c(building.PROGRAMS / f"c/{name}.c", self.room, self.library, *flags)

    def served(self, name: str, *words: str, **more) -> serving.Gateway:
        """A gateway in a folder of its own."""
        room = self.room / f"served_{name}"
        room.mkdir()
        gateway = serving.Gateway(room, self.gateway, self.play, words=words, **more)
        gateway.start()
        return gateway
