"""The frames of the client, for tools: a tool that asks `am` by HTTP writes them by these functions too."""
import sys
from pathlib import Path

sys.path.insert(0, str(Path(__file__).resolve().parent.parent / "client"))

from amctl.frames import BadFrame, Reader, frame  # noqa: E402

__all__ = ["BadFrame", "Reader", "frame"]
