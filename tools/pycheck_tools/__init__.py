"""The tools that check, measure, attack and compare the programs and the pages, one module for each word of a command."""
from __future__ import annotations

from pathlib import Path

ROOT = Path(__file__).resolve().parents[2]
